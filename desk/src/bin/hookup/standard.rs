//! Whether standard input and output were open when the program was started. In the place of one that was closed the
//! runtime opens /dev/null before `main`, from where no bytes come and where all bytes seem to arrive; so they are
//! looked at before that.

use std::io;
use std::sync::atomic::{AtomicBool, Ordering};

pub struct Stream {
    descriptor: i32,
    closed: AtomicBool,
}

pub static INPUT: Stream = Stream { descriptor: 0, closed: AtomicBool::new(false) };
pub static OUTPUT: Stream = Stream { descriptor: 1, closed: AtomicBool::new(false) };

impl Stream {
    pub fn must_be_open(&self) -> io::Result<()> {
        match self.closed.load(Ordering::Relaxed) {
            true => Err(io::Error::other("it is closed")),
            false => Ok(()),
        }
    }
}

const GET_FLAGS: i32 = 1;

extern "C" {
    fn fcntl(descriptor: i32, command: i32, ...) -> i32;
}

extern "C" fn look() {
    for stream in [&INPUT, &OUTPUT] {
        // Safety: asking for the flags of a descriptor changes nothing, whether it is open or not.
        let flags = unsafe { fcntl(stream.descriptor, GET_FLAGS) };
        stream.closed.store(flags == -1, Ordering::Relaxed);
    }
}

#[used]
#[link_section = ".init_array"]
static BEFORE_MAIN: extern "C" fn() = look;
