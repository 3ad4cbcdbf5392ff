pub use ::std::time::*;
use crate::plain_std::rt::HostRuntime;
use ::std::io;

#[derive(Clone, Copy, Debug)]
pub struct Instant(::std::time::Instant);

impl Instant {
    pub fn now(_: &HostRuntime) -> io::Result<Instant> {
        Ok(Instant(::std::time::Instant::now()))
    }

    pub fn elapsed(&self, _: &HostRuntime) -> io::Result<Duration> {
        Ok(self.0.elapsed())
    }
}
