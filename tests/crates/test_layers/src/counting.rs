//! Another engine than the batch language's, through the bound of sessions and servers.

ghost use Rattle.std.specs.Prelude.{Some, pos};
ghost use Rattle.std.specs.Int.{w32, int_wrapping_add};
ghost use Rattle.std.proofs.Common.{lit≤, rules, arith};
ghost use Rattle.std.proofs.Math.Facts.{sfits_to_z};
ghost use Rattle.tds_session.specs.Laws.Effects.{step_is};
ghost use Rattle.tds_session.specs.Laws.Packets.{step_fits};
ghost use Rattle.tds_session.specs.Script.{step_of};
ghost use Rattle.tds_session.specs.Session.{value_of};
ghost use Rattle.tds_session.specs.declared.statement.Statement.TheVariants.{Set};

use std::alloc::Global;
use std::cell::Cell;
use tds_session::{Engine, Key, NoMemory, ScriptEngine, Session, Statement};
use tds_token::Token;

/// An engine for which each unit of a text is a statement, and which adds 1 to `a`.
///
/// It counts the steps that it is asked for outside of any session: so a step shows whichever
/// session it is done on, and whatever becomes of that session.
#[derive(Drop)]
pub struct Counts<'a> {
    pub steps: &'a Cell<u32>,
}

impl Engine for Counts<'_> {
    type Stmt = u16;

    ghost statements_of = { λ _ text. Some text };

    ghost step_of = { λ _ session _. step_of session (Set 97 (int_wrapping_add w32
        (value_of session 97) (pos 1))) };

    ghost is_statement = { λ _ _. Unit {0} };

    ghost spells = { λ _ text found e k d h. tt };

    ghost is_effect = { λ _ session _. step_is session (Set 97 (int_wrapping_add w32
        (value_of session 97) (pos 1))) };

    ghost fits_packet = { λ _ session _ h _. step_fits session (Set 97 (int_wrapping_add w32
        (value_of session 97) (pos 1))) h
        (record { least = lit≤ tt; most = lit≤ tt }, sfits_to_z (Prim.search (rules, arith))) };

    fn parse(&self, alloc: Global, text: &[u16]) -> Result<Option<Vec<u16>>, NoMemory> {
        Ok(Some(text.to_vec(alloc)?))
    }

    fn step(
        &self,
        alloc: Global,
        session: &mut Session,
        _statement: &u16,
        tokens: &mut Vec<Token>,
    ) -> Result<(), NoMemory> {
        self.steps.set(self.steps.get().wrapping_add(1));
        let value = session.get(b'a').wrapping_add(1);
        let Some(key) = Key::new(97) else {
            unreachable!()
        };
        ScriptEngine.step(alloc, session, &Statement::Set { key, value }, tokens)
    }
}
