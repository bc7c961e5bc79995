//! The terminal: taken for the time of the entry, drawn on, listened to, and set back whatever happens.

use crate::screen::Drawing;
use crossterm::cursor::{Hide, MoveTo, Show};
use crossterm::event::{DisableBracketedPaste, EnableBracketedPaste};
use crossterm::style::Print;
use crossterm::terminal::{self, Clear, ClearType, EnterAlternateScreen, LeaveAlternateScreen};
use crossterm::tty::IsTty;
use crossterm::{execute, queue};
use std::fs::{File, OpenOptions};
use std::io::{self, Write};
use std::mem::MaybeUninit;
use std::os::raw::c_int;
use std::sync::atomic::{AtomicBool, Ordering};
use std::sync::mpsc::{channel, Receiver, RecvTimeoutError};
use std::thread;
use std::time::Duration;

/// Bytes that come within this time after others came in at once with them: a paste that the terminal does not mark as
/// one, or keys that were held up on the way. Nobody types as fast.
const AT_ONCE: Duration = Duration::from_millis(10);

/// What happens at a terminal.
pub enum Event {
    /// Bytes came in at once.
    Bytes(Vec<u8>),
    /// Its size changed.
    Resized,
    /// A signal asks the program to end.
    Signal(c_int),
    /// No more bytes will come.
    End,
}

/// The terminal that standard input is, while it hands over each byte as it comes, on a screen of its own.
pub struct Terminal {
    out: File,
    events: Receiver<Event>,
    /// An event that came while others were put together.
    next: Option<Event>,
}

/// Whether a terminal is taken and not yet set back.
static TAKEN: AtomicBool = AtomicBool::new(false);

impl Terminal {
    /// Takes the terminal, if there is one.
    pub fn take() -> io::Result<Terminal> {
        if !io::stdin().is_tty() {
            let sentence = "standard input must be a terminal";
            return Err(io::Error::new(io::ErrorKind::Other, sentence));
        }
        let mut out = screen()?;
        let signals = Signals::new();
        // Held back here and in the threads to come, the signals wait until they are asked for, and interrupt nothing.
        signals.mask(libc::SIG_BLOCK);
        let before = std::panic::take_hook();
        std::panic::set_hook(Box::new(move |panic| {
            set_back();
            before(panic);
        }));
        TAKEN.store(true, Ordering::SeqCst);
        let taken = terminal::enable_raw_mode()
            .and_then(|()| execute!(out, EnterAlternateScreen, EnableBracketedPaste));
        forget_typed();
        let terminal = Terminal {
            out,
            events: listen(signals),
            next: None,
        };
        // Dropped, where this went wrong, the terminal is set back.
        taken.map(|()| terminal)
    }

    /// Draws on the screen, with a bell if that is asked for.
    pub fn draw(&mut self, drawing: &Drawing, bell: bool) -> io::Result<()> {
        let mut all = Vec::new();
        queue!(all, Hide)?;
        // A line is cleared before it is written: behind a full one the cursor still stands on its last column.
        for (row, line) in (0..).zip(&drawing.lines) {
            queue!(
                all,
                MoveTo(0, row),
                Clear(ClearType::UntilNewLine),
                Print(line)
            )?;
        }
        if bell {
            queue!(all, Print('\x07'))?;
        }
        let (row, column) = drawing.cursor;
        queue!(all, MoveTo(column, row), Show)?;
        self.out.write_all(&all)?;
        self.out.flush()
    }

    /// The rows and columns of the screen; 24 and 80 of one that does not say.
    pub fn size(&self) -> (u16, u16) {
        terminal::size().map_or((24, 80), |(columns, rows)| (rows, columns))
    }

    /// Waits for the next event. Bytes that come at once are one event.
    pub fn event(&mut self) -> Event {
        let first = match self.next.take() {
            Some(event) => event,
            None => self.events.recv().unwrap_or(Event::End),
        };
        let mut bytes = match first {
            Event::Bytes(bytes) => bytes,
            other => return other,
        };
        loop {
            match self.events.recv_timeout(AT_ONCE) {
                Ok(Event::Bytes(more)) => bytes.extend(more),
                // A new size is seen to after the bytes, and does not part them.
                Ok(other) => self.next = Some(other),
                Err(RecvTimeoutError::Disconnected) => self.next = Some(Event::End),
                Err(RecvTimeoutError::Timeout) => return Event::Bytes(bytes),
            }
            if matches!(self.next, Some(Event::Signal(_) | Event::End)) {
                return Event::Bytes(bytes);
            }
        }
    }
}

impl Drop for Terminal {
    fn drop(&mut self) {
        set_back();
    }
}

/// The terminal, to be written to.
fn screen() -> io::Result<File> {
    OpenOptions::new().write(true).open("/dev/tty")
}

/// Sets the terminal back, if it is taken. One that is gone need not be.
fn set_back() {
    if TAKEN.swap(false, Ordering::SeqCst) {
        let _ = screen()
            .and_then(|mut out| execute!(out, DisableBracketedPaste, Show, LeaveAlternateScreen));
        forget_typed();
        let _ = terminal::disable_raw_mode();
    }
}

/// Drops what was typed and not read: nothing that is typed ahead gets from the shell into the form, nor from the form
/// into the shell.
fn forget_typed() {
    // Sound: this takes a number and no memory.
    let _ = unsafe { libc::tcflush(libc::STDIN_FILENO, libc::TCIFLUSH) };
}

/// What happens at the terminal, sent by two threads that go on to the end of the program.
fn listen(signals: Signals) -> Receiver<Event> {
    let (to, events) = channel();
    let too = to.clone();
    thread::spawn(move || loop {
        let signal = signals.wait();
        if signal != libc::SIGWINCH {
            // It waits for no other, which could take the one that is to end the program.
            let _ = too.send(Event::Signal(signal));
            break;
        }
        if too.send(Event::Resized).is_err() {
            break;
        }
    });
    thread::spawn(move || {
        let mut bytes = [0; 4_096];
        loop {
            let event = match io::Read::read(&mut io::stdin(), &mut bytes) {
                Ok(0) => Event::End,
                Ok(length) => Event::Bytes(bytes[..length].to_vec()),
                Err(error) if error.kind() == io::ErrorKind::Interrupted => continue,
                Err(_) => Event::End,
            };
            let is_end = matches!(event, Event::End);
            if to.send(event).is_err() || is_end {
                break;
            }
        }
    });
    events
}

/// Ends the program as the signal would have ended it. The terminal must have been set back.
pub fn end_by(signal: c_int) -> ! {
    Signals::new().mask(libc::SIG_UNBLOCK);
    // Sound: this takes a number and no memory.
    unsafe { libc::raise(signal) };
    // Where it is ignored.
    std::process::exit(128 + signal)
}

/// The signals that a display listens to.
struct Signals(libc::sigset_t);

impl Signals {
    /// Those that ask the program to end, and the one that says that the size has changed.
    fn new() -> Signals {
        let mut set = MaybeUninit::uninit();
        // Sound: the first call makes it a set, and the others change that.
        Signals(unsafe {
            libc::sigemptyset(set.as_mut_ptr());
            for signal in [libc::SIGTERM, libc::SIGHUP, libc::SIGINT, libc::SIGWINCH] {
                libc::sigaddset(set.as_mut_ptr(), signal);
            }
            set.assume_init()
        })
    }

    /// Holds them back in this thread and in those that it starts, or lets them through.
    fn mask(&self, how: c_int) {
        // Sound: the set is one, and nothing is written.
        unsafe { libc::pthread_sigmask(how, &self.0, std::ptr::null_mut()) };
    }

    /// Waits for one of them.
    fn wait(&self) -> c_int {
        let mut signal = 0;
        // Sound: the set is one, and the number is ours.
        while unsafe { libc::sigwait(&self.0, &mut signal) } != 0 {}
        signal
    }
}
