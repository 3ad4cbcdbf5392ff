// Written by scripts/plain out of crates/cidr/src/answering.rt

//! Answers lines. The replies wait to be written until there is no room for more.

use crate::dispatch::answer;
use crate::replies::{ANSWER_MAX, reply};
use crate::route_tables::RouteTables;
use cidr_programs::lines::buffer::Buffer;
use cidr_programs::lines::fault::RunFault;
use cidr_programs::lines::watched::Watched;
use fosibegan_core::plain_std::alloc::Global;
use fosibegan_core::plain_std::io::Write;

/// The greatest number of bytes in a line, not counting its line ending. A longer line is too long.
pub(crate) const LINE_MAX: usize = 1024;

/// What a run keeps from line to line: the routes, and the replies that wait to be written.
pub(crate) struct Answering<'a> {
    routes: RouteTables,
    waiting: Buffer<'a>,
}

impl<'a> Answering<'a> {
    /// Starts with no routes and no replies. Replies will wait in the slice.
    pub(crate) fn new(alloc: Global, slice: &'a mut [u8]) -> Answering<'a> {
        Answering {
            routes: RouteTables::new(alloc),
            waiting: Buffer::new(slice),
        }
    }

    /// Adds the reply to a line.
    pub(crate) fn answer_line<W: Write>(
        &mut self,
        line: &[u8],
        writer: &mut Watched<W>,
    ) -> Result<(), RunFault> {
        self.make_room(writer)?;
        answer(line, &mut self.routes, &mut self.waiting);
        Ok(())
    }

    /// Adds the reply to a line that is too long.
    pub(crate) fn answer_too_long<W: Write>(
        &mut self,
        writer: &mut Watched<W>,
    ) -> Result<(), RunFault> {
        self.make_room(writer)?;
        reply(&mut self.waiting, "line too long");
        Ok(())
    }

    // Writes the replies that wait if there may be no room for one more.
    fn make_room<W: Write>(&mut self, writer: &mut Watched<W>) -> Result<(), RunFault> {
        if self.waiting.remaining() >= ANSWER_MAX {
            return Ok(());
        }
        self.hand_on(writer)
    }

    /// Writes the replies that wait.
    pub(crate) fn hand_on<W: Write>(&mut self, writer: &mut Watched<W>) -> Result<(), RunFault> {
        writer.write_whole(self.waiting.as_slice())?;
        self.waiting.clear();
        Ok(())
    }
}
