//! Runs of the command, and folders for them.
#![allow(dead_code, reason = "each test program uses a part of it")]

use std::{
    env, fs,
    io::Write,
    os::unix::{fs::PermissionsExt, process::CommandExt},
    path::{Path, PathBuf},
    process::{self, Command, Output, Stdio},
    sync::atomic::{AtomicUsize, Ordering},
    thread,
};

/// The command that is tested.
pub const LEXICON: &str = env!("CARGO_BIN_EXE_lexicon");

/// What a run gave.
#[derive(Debug)]
pub struct Run {
    /// The exit status, or none if a signal ended it.
    pub status: Option<i32>,
    pub out: String,
    pub err: String,
}

impl Run {
    /// Runs a command.
    pub fn of(command: &mut Command) -> Self {
        command.output().unwrap().into()
    }

    /// Runs a command on this standard input, which it may leave unread.
    pub fn on(command: &mut Command, input: &[u8]) -> Self {
        let piped = command.stdin(Stdio::piped()).stdout(Stdio::piped());
        let mut child = piped.stderr(Stdio::piped()).spawn().unwrap();
        let mut to = child.stdin.take().unwrap();
        thread::scope(|scope| {
            scope.spawn(move || to.write_all(input));
            child.wait_with_output().unwrap().into()
        })
    }

    /// Asserts the status and all that was written.
    #[track_caller]
    pub fn gives(&self, status: i32, out: &str, err: &str) {
        let all = (self.status, &*self.out, &*self.err);
        assert_eq!(all, (Some(status), out, err));
    }

    /// Asserts a failure that says this.
    #[track_caller]
    pub fn fails(&self, said: &str) {
        assert_eq!((self.status, &*self.out), (Some(2), ""), "{self:?}");
        assert!(self.err.contains(said), "{self:?}");
    }
}

impl From<Output> for Run {
    fn from(output: Output) -> Self {
        let text = |bytes: &[u8]| String::from_utf8_lossy(bytes).into_owned();
        Self {
            status: output.status.code(),
            out: text(&output.stdout),
            err: text(&output.stderr),
        }
    }
}

/// Runs `lexicon` with these arguments on this standard input.
pub fn lexicon(arguments: &[&str], input: impl AsRef<[u8]>) -> Run {
    Run::on(Command::new(LEXICON).args(arguments), input.as_ref())
}

/// Runs a script of bash in a folder, where `lexicon` is the command.
pub fn script(folder: &Path, script: &str) -> Run {
    let bin = Path::new(LEXICON).parent().unwrap().to_owned();
    let path = env::var_os("PATH").unwrap_or_default();
    let path = env::join_paths([bin].into_iter().chain(env::split_paths(&path))).unwrap();
    let mut bash = Command::new("bash");
    Run::of(
        bash.arg("-c")
            .arg(script)
            .current_dir(folder)
            .env("PATH", path),
    )
}

/// A new empty folder, removed when the test is done with it.
pub struct Folder(pub PathBuf);

impl Folder {
    pub fn new() -> Self {
        Self::inside(Path::new(env!("CARGO_TARGET_TMPDIR")))
    }

    /// One that other users may enter and write in.
    pub fn open_to_all() -> Self {
        let folder = Self::inside(&env::temp_dir());
        fs::set_permissions(&folder.0, PermissionsExt::from_mode(0o777)).unwrap();
        folder
    }

    fn inside(parent: &Path) -> Self {
        static COUNT: AtomicUsize = AtomicUsize::new(0);
        let count = COUNT.fetch_add(1, Ordering::Relaxed);
        let path = parent.join(format!("lexicon-{}-{count}", process::id()));
        fs::create_dir_all(&path).unwrap();
        Self(path.canonicalize().unwrap()) // as the program tells it to the system
    }

    pub fn path(&self, name: &str) -> PathBuf {
        self.0.join(name)
    }

    pub fn write(&self, name: &str, bytes: impl AsRef<[u8]>) -> PathBuf {
        let path = self.path(name);
        fs::write(&path, bytes).unwrap();
        path
    }

    pub fn read(&self, name: &str) -> Vec<u8> {
        fs::read(self.path(name)).unwrap()
    }

    /// The names in the folder, hidden ones too.
    pub fn names(&self) -> Vec<String> {
        let entries = fs::read_dir(&self.0).unwrap();
        let names = entries.map(|entry| entry.unwrap().file_name().into_string().unwrap());
        let mut names: Vec<_> = names.collect();
        names.sort();
        names
    }

    /// Runs a script of bash here.
    pub fn script(&self, text: &str) -> Run {
        script(&self.0, text)
    }
}

impl Drop for Folder {
    fn drop(&mut self) {
        let _ = fs::remove_dir_all(&self.0);
    }
}

/// Whether the tests run as root, whom no permission stops.
pub fn is_root() -> bool {
    let status = fs::read_to_string("/proc/self/status").unwrap();
    let ids = status.lines().find_map(|line| line.strip_prefix("Uid:"));
    ids.unwrap().split_whitespace().nth(1) == Some("0")
}

/// Lets the command run as a user whom permissions stop, from a copy that this user may run.
pub fn as_user(folder: &Folder, command: &mut Command) -> Command {
    let program = folder.path("program");
    // By another process: a file that this one has open to write, and so for a moment also each
    // child that another test starts, can't be run.
    let mut copy = Command::new("cp");
    copy.arg(command.get_program()).arg(&program);
    assert!(copy.status().unwrap().success());
    let mut user = Command::new(&program);
    user.args(command.get_args()).current_dir(&folder.0);
    user.stdin(Stdio::null());
    if is_root() {
        user.uid(65534).gid(65534);
    }
    user
}
