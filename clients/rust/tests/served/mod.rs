//! What tests start: the model of the Python client's tests, and the built program, where there is one.
#![allow(dead_code)]

use spanner_shards::Store;
use std::path::{Path, PathBuf};
use std::process::{Command, Stdio};
use std::sync::atomic::{AtomicU64, Ordering};
use std::{env, fmt, fs, process};

/// The words that start a program.
#[derive(Clone, Debug)]
pub struct Program(Vec<PathBuf>);

impl fmt::Display for Program {
    fn fmt(&self, f: &mut fmt::Formatter<'_>) -> fmt::Result {
        write!(f, "the {}", if self.0.len() > 1 { "model" } else { "program" })
    }
}

/// The model. It wants `python3`.
pub fn model() -> Program {
    Program(vec!["python3".into(), top().join("clients/python/tests/fake_serve.py")])
}

/// The model, and the program that SHARDS_PROGRAM names, or the one that was built here, if there is one that serves.
pub fn programs() -> Vec<Program> {
    let built = top().join("crates/shards/out/shards");
    let help = Command::new(&built).arg("--help").output();
    let serves = help.is_ok_and(|help| String::from_utf8_lossy(&help.stdout).contains("serve "));
    let program = env::var_os("SHARDS_PROGRAM").map(PathBuf::from).or(serves.then_some(built));
    if program.is_none() {
        eprintln!("the program is not built: the model alone is tried");
    }
    [model()].into_iter().chain(program.map(|program| Program(vec![program]))).collect()
}

fn top() -> PathBuf {
    Path::new(env!("CARGO_MANIFEST_DIR")).join("../..")
}

/// A folder of a test's own with a store in it, which goes with it.
pub struct Logs {
    program: Program,
    room: PathBuf,
}

static COUNT: AtomicU64 = AtomicU64::new(0);

impl Logs {
    pub fn made_by(program: Program) -> Logs {
        let room = env::temp_dir().join(format!("spanner-shards-{}-{}", process::id(), COUNT.fetch_add(1, Ordering::SeqCst)));
        fs::create_dir(&room).unwrap();
        let logs = Logs { program, room };
        let made = logs.command("make").arg("m").stdout(Stdio::null()).status().unwrap();
        assert!(made.success(), "{made}");
        logs
    }

    fn command(&self, verb: &str) -> Command {
        let mut command = Command::new(&self.program.0[0]);
        command.args(&self.program.0[1..]).arg(verb).arg(self.room.join("logs"));
        command
    }

    pub fn open(&self, clients: usize, options: &[&str]) -> Store {
        self.try_open(clients, options).unwrap()
    }

    pub fn try_open(&self, clients: usize, options: &[&str]) -> std::io::Result<Store> {
        let mut command = self.command("serve");
        command.arg("--clients").arg(clients.to_string()).args(options);
        Store::start(command, clients)
    }

    /// A store of the model, which is told some answers.
    pub fn told(&self, clients: usize, answers: &[&str]) -> Store {
        let path = self.room.join("told");
        fs::write(&path, answers.join("\n") + "\n").unwrap();
        self.open(clients, &["--told", path.to_str().unwrap()])
    }
}

impl Drop for Logs {
    fn drop(&mut self) {
        let _ = fs::remove_dir_all(&self.room);
    }
}
