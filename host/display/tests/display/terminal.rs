//! A program in a pseudo-terminal: bytes are sent to it, and what it draws is read from an emulated screen.

use std::fs::{File, OpenOptions};
use std::io::{self, Read, Write};
use std::mem::MaybeUninit;
use std::os::unix::fs::OpenOptionsExt;
use std::os::unix::io::AsRawFd;
use std::os::unix::process::CommandExt;
use std::process::{Child, Command, ExitStatus, Stdio};
use std::thread;
use std::time::{Duration, Instant};

use libc::c_int;

/// How long one program may run.
const LIMIT: Duration = Duration::from_secs(60);

/// What shows the cursor: the end of a drawing.
const SHOWN: &[u8] = b"\x1B[?25h";

/// Rows and columns of a terminal.
pub type Size = (u16, u16);

/// The settings of a terminal: flags, speeds and special characters.
type Settings = ([libc::tcflag_t; 4], [libc::speed_t; 2], Vec<libc::cc_t>);

/// The result of a call of the system's that returns -1 where it fails.
fn checked(number: c_int) -> io::Result<()> {
    match number {
        -1 => Err(io::Error::last_os_error()),
        _ => Ok(()),
    }
}

/// A pseudo-terminal: our side, which never blocks, and the program's side. Programs of other tests get neither.
fn terminal(size: Size) -> (File, File) {
    let mut options = OpenOptions::new();
    let options = options.read(true).write(true);
    let flags = libc::O_NOCTTY;
    let ours = options.custom_flags(flags | libc::O_NONBLOCK);
    let ours = ours.open("/dev/ptmx").unwrap();
    set_size(&ours, size);
    let mut name = [0_u8; 64];
    // Sound: no more is written than the name has room for.
    let number = unsafe {
        checked(libc::unlockpt(ours.as_raw_fd())).unwrap();
        libc::ptsname_r(ours.as_raw_fd(), name.as_mut_ptr().cast(), name.len())
    };
    assert_eq!(number, 0);
    let end = name.iter().position(|byte| *byte == 0).unwrap();
    let name = std::str::from_utf8(&name[..end]).unwrap();
    let its = options.custom_flags(flags).open(name);
    (ours, its.unwrap())
}

/// Sets the size of a terminal, of which the program hears if it is another one.
fn set_size(terminal: &File, (rows, columns): Size) {
    // Its width and height in pixels are not known.
    let size = [rows, columns, 0, 0];
    // Sound: this request reads these four numbers.
    checked(unsafe { libc::ioctl(terminal.as_raw_fd(), libc::TIOCSWINSZ, size.as_ptr()) }).unwrap();
}

/// The settings of a terminal; our side has those of the program's side.
fn settings(terminal: &File) -> Settings {
    let mut settings = MaybeUninit::<libc::termios>::zeroed();
    // Sound: what is written are settings, and zeros where nothing is written are numbers too.
    let settings = unsafe {
        checked(libc::tcgetattr(terminal.as_raw_fd(), settings.as_mut_ptr())).unwrap();
        settings.assume_init()
    };
    let [input, output] = [settings.c_iflag, settings.c_oflag];
    let flags = [input, output, settings.c_cflag, settings.c_lflag];
    let speeds = [settings.c_ispeed, settings.c_ospeed];
    (flags, speeds, settings.c_cc.to_vec())
}

/// The rows of a screen as text, without the spaces at their ends.
fn rows(screen: &vt100::Screen) -> Vec<String> {
    let (_, columns) = screen.size();
    let rows = screen.rows(0, columns);
    rows.map(|row| row.trim_end().to_string()).collect()
}

/// The command that starts the program `display`, under the emulator where these tests run under one.
pub fn program(arguments: &[&str]) -> Command {
    let runner = std::env::var("CARGO_TARGET_X86_64_UNKNOWN_LINUX_GNU_RUNNER").unwrap_or_default();
    let words = runner.split_whitespace();
    let mut words = words.chain([env!("CARGO_BIN_EXE_display")]);
    let mut command = Command::new(words.next().unwrap());
    command.args(words).args(arguments);
    command
}

/// A program that runs in a terminal of its own.
pub struct Display {
    child: Child,
    ours: File,
    /// The terminal's settings before the program ran.
    before: Settings,
    /// All that was read, and how much of it the emulator has got.
    written: Vec<u8>,
    fed: usize,
    emulator: vt100::Parser,
    end: Instant,
}

impl Display {
    /// Starts `display` with these arguments in a terminal of that size, and waits for its first drawing.
    pub fn start(arguments: &[&str], size: Size) -> Display {
        let mut display = Display::run(program(arguments), size, None);
        display.drawn();
        // Otherwise `ended` would show nothing.
        assert_ne!(settings(&display.ours), display.before);
        display
    }

    /// Starts any program, whose standard output is the terminal or what is given, and waits for nothing.
    pub fn run(mut command: Command, size: Size, output: Option<Stdio>) -> Display {
        let (ours, its) = terminal(size);
        let before = settings(&ours);
        let its = || Stdio::from(its.try_clone().unwrap());
        let output = output.unwrap_or_else(its);
        command.stdin(its()).stdout(output).stderr(its());
        // Sound: between fork and exec this only calls the system, and takes no memory or lock.
        unsafe {
            command.pre_exec(|| {
                // A signal may be ignored where these tests were started, as by nohup, and would be so in the program.
                for signal in [libc::SIGTERM, libc::SIGHUP, libc::SIGINT] {
                    libc::signal(signal, libc::SIG_DFL);
                }
                checked(libc::setsid())?;
                checked(libc::ioctl(0, libc::TIOCSCTTY, 0))
            })
        };
        let child = command.spawn().unwrap();
        // Here the program's side is closed for us, so that reading ends when the program has closed it.
        Display {
            child,
            ours,
            before,
            written: Vec::new(),
            fed: 0,
            emulator: vt100::Parser::new(size.0, size.1, 0),
            end: Instant::now() + LIMIT,
        }
    }

    /// Writes these bytes to the terminal in one write.
    pub fn send(&mut self, bytes: &[u8]) {
        let length = self.ours.write(bytes).unwrap();
        assert_eq!(length, bytes.len(), "the terminal takes no more");
    }

    /// Reads to the end of the next drawing, and not beyond it.
    pub fn drawn(&mut self) {
        while !self.feed() {
            self.read_on();
        }
    }

    /// Sends these bytes, and reads to the end of the next drawing.
    pub fn key(&mut self, bytes: &[u8]) {
        self.send(bytes);
        self.drawn();
    }

    /// Changes the size of the terminal to another one, and reads to the end of the next drawing.
    pub fn resize(&mut self, size: Size) {
        self.emulator.set_size(size.0, size.1);
        set_size(&self.ours, size);
        self.drawn();
    }

    /// The screen's rows as text, without the spaces at their ends.
    pub fn rows(&self) -> Vec<String> {
        rows(self.emulator.screen())
    }

    /// The row and the column of the cursor, from 0.
    pub fn cursor(&self) -> (u16, u16) {
        self.emulator.screen().cursor_position()
    }

    /// How often the bell has rung so far.
    pub fn bells(&self) -> usize {
        self.emulator.screen().audible_bell_count()
    }

    /// Whether the alternate screen is on.
    pub fn alternate(&self) -> bool {
        self.emulator.screen().alternate_screen()
    }

    /// Sends a signal to the program.
    pub fn signal(&mut self, signal: c_int) {
        // Sound: nobody has waited for the program yet, so the number is still its own.
        checked(unsafe { libc::kill(self.child.id() as libc::pid_t, signal) }).unwrap();
    }

    /// Reads until this holds of the screen; a drawing that has hidden the cursor is read to its end first.
    pub fn until(&mut self, wanted: impl Fn(&vt100::Screen) -> bool) {
        loop {
            let screen = self.emulator.screen();
            if !screen.hide_cursor() && wanted(screen) {
                break;
            }
            if self.fed == self.written.len() {
                self.read_on();
            }
            self.feed();
        }
    }

    /// Waits for the program's end, after which the terminal must be as before: how it ended, and the screen's rows.
    pub fn ended(mut self) -> (ExitStatus, Vec<String>) {
        while self.read() {}
        while self.feed() {}
        let status = self.status();
        let seen = format!("{status}, {}", self.seen());
        assert_eq!(settings(&self.ours), self.before, "{seen}");
        let screen = self.emulator.screen();
        assert!(!screen.alternate_screen(), "alternate screen: {seen}");
        assert!(!screen.bracketed_paste(), "bracketed paste: {seen}");
        assert!(!screen.hide_cursor(), "hidden cursor: {seen}");
        (status, self.rows())
    }

    /// Closes our side of the terminal, which hangs up: how the program ended.
    pub fn hung_up(mut self) -> ExitStatus {
        self.ours = File::open("/dev/null").unwrap();
        self.status()
    }

    /// Feeds the emulator with what was read, but not beyond the end of the next drawing. Whether there was one.
    fn feed(&mut self) -> bool {
        // The end of a drawing may have come in two parts, of which the first was fed before.
        let from = self.fed.saturating_sub(SHOWN.len() - 1);
        let mut windows = self.written[from..].windows(SHOWN.len());
        let shown = windows.position(|bytes| bytes == SHOWN);
        let to = shown.map_or(self.written.len(), |at| from + at + SHOWN.len());
        self.emulator.process(&self.written[self.fed..to]);
        self.fed = to;
        shown.is_some()
    }

    /// Waits for more from the program, and reads it. False, if the program has closed the terminal.
    fn read(&mut self) -> bool {
        let mut chunk = [0; 4_096];
        loop {
            match self.ours.read(&mut chunk) {
                Ok(length) => {
                    self.written.extend(&chunk[..length]);
                    return true;
                }
                Err(error) if error.raw_os_error() == Some(libc::EIO) => return false,
                Err(error) if error.kind() == io::ErrorKind::WouldBlock => self.wait(),
                Err(error) => panic!("{error}"),
            }
        }
    }

    /// Waits until there may be something to read, which must come before the deadline.
    fn wait(&self) {
        let left = self.end.saturating_duration_since(Instant::now());
        assert!(!left.is_zero(), "no more in {LIMIT:?} than {}", self.seen());
        let mut ours = libc::pollfd {
            fd: self.ours.as_raw_fd(),
            events: libc::POLLIN,
            revents: 0,
        };
        // Sound: the one place is ours. Whatever comes of this, reading tells.
        unsafe { libc::poll(&mut ours, 1, left.as_millis() as c_int) };
    }

    /// Reads more from the program, which must not have closed the terminal.
    fn read_on(&mut self) {
        let more = self.read();
        assert!(more, "the program has closed the terminal: {}", self.seen());
    }

    /// What the emulator shows, for messages.
    fn seen(&self) -> String {
        format!("{:#?} with the cursor at {:?}", self.rows(), self.cursor())
    }

    /// How the program ended, which must come before the deadline.
    fn status(&mut self) -> ExitStatus {
        loop {
            if let Some(status) = self.child.try_wait().unwrap() {
                return status;
            }
            let late = Instant::now() >= self.end;
            assert!(!late, "no end in {LIMIT:?}: {}", self.seen());
            thread::sleep(Duration::from_millis(5));
        }
    }
}

impl Drop for Display {
    fn drop(&mut self) {
        // Where a test has failed, the program may still run.
        let _ = self.child.kill();
        let _ = self.child.wait();
    }
}
