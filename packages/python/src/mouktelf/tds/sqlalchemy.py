"""SQLAlchemy's dialect over this module: `create_engine("mssql+mouktelf://sa:..@host:1433/database")`; or over a pool of this package's,
`create_engine("mssql+mouktelf://", creator=pool.connection, poolclass=NullPool)`. Tried with SQLAlchemy 1.4."""

from typing import Any, Dict, List, Tuple

from sqlalchemy.dialects.mssql.pymssql import MSDialect_pymssql

from mouktelf import tds

# By their numbers in a transaction's begin (MS-TDS 2.2.6.9); 0 is the server's own, which is read committed.
_LEVELS = ("", "READ UNCOMMITTED", "READ COMMITTED", "REPEATABLE READ", "SERIALIZABLE", "SNAPSHOT")


class Dialect(MSDialect_pymssql):
    """That for pymssql, whose parameters look the same."""

    driver = "mouktelf"
    supports_statement_cache = True

    @classmethod
    def dbapi(cls) -> Any:
        return tds

    import_dbapi = dbapi

    def create_connect_args(self, url: Any) -> Tuple[List[Any], Dict[str, Any]]:
        """The words of `mouktelf.tds.connect`."""
        return [], {**url.translate_connect_args(username="user", host="dsn"), **url.query}

    def is_disconnect(self, e: Exception, connection: Any, cursor: Any) -> bool:
        return isinstance(e, (tds.ConnectionLost, tds.InterfaceError))

    def set_isolation_level(self, connection: Any, level: str) -> None:
        connection.autocommit = level == "AUTOCOMMIT"
        if not connection.autocommit:
            connection.isolation_level = _LEVELS.index(level.replace("_", " "))

    def get_isolation_level(self, connection: Any) -> str:
        return "AUTOCOMMIT" if connection.autocommit else _LEVELS[connection.isolation_level or _LEVELS.index("READ COMMITTED")]
