"""The first page of SQLAlchemy's ORM over the DB-API module of packages/python, as far as a server without tables answers:
mouktelf_tds_orm.py PORT PACED_PORT."""
import sys

try:
    from sqlalchemy import Column, ForeignKey, Integer, String, create_engine, exc, select, text
    from sqlalchemy.dialects import registry
    from sqlalchemy.orm import Session, declarative_base, relationship
except ImportError:
    print("orm: not installed")
    sys.exit()

registry.register("mssql.mouktelf", "mouktelf.tds.sqlalchemy", "Dialect")
Base = declarative_base()
SPONGEBOB = text("select 1 as id, N'spongebob' as name, N'Spongebob Squarepants' as fullname")


class User(Base):
    __tablename__ = "user_account"
    id = Column(Integer, primary_key=True)
    name = Column(String(30))
    fullname = Column(String)
    addresses = relationship("Address", back_populates="user", cascade="all, delete-orphan")

    def __repr__(self):
        return f"User(id={self.id!r}, name={self.name!r}, fullname={self.fullname!r})"


class Address(Base):
    __tablename__ = "address"
    id = Column(Integer, primary_key=True)
    email_address = Column(String, nullable=False)
    user_id = Column(Integer, ForeignKey("user_account.id"), nullable=False)
    user = relationship("User", back_populates="addresses")


def tried(name, what):
    try:
        print(name, "->", what())
    except exc.DBAPIError as error:
        print(name, "->", type(error).__name__, error.orig.number)


def objects(session):
    return session.scalars(select(User).from_statement(SPONGEBOB)).all()


ENGINE = create_engine(f"mssql+mouktelf://a:b@127.0.0.1:{sys.argv[1]}/main")
tried("orm: create_all", lambda: Base.metadata.create_all(ENGINE))
with Session(ENGINE) as SESSION:
    SESSION.add(User(name="sandy", fullname="Sandy Cheeks", addresses=[Address(email_address="sandy@sqlalchemy.org")]))
    tried("add and commit", SESSION.commit)
    SESSION.rollback()
    tried("select", lambda: SESSION.scalars(select(User).where(User.name.in_(["spongebob", "sandy"]))).all())
    SESSION.rollback()
    tried("objects", lambda: objects(SESSION))
    tried("the same object", lambda: objects(SESSION)[0] is objects(SESSION)[0])
    tried("get", lambda: SESSION.get(User, 2))
    SESSION.rollback()
    tried("in a transaction", lambda: SESSION.scalar(text("select @@trancount")))
    SESSION.commit()
with Session(ENGINE) as SESSION:
    tried("in another one", lambda: SESSION.scalar(text("select @@trancount")))
print(ENGINE.pool.checkedin(), "connection in SQLAlchemy's pool,", ENGINE.pool.checkedout(), "out of it")
