//! The program behind the pipe: started, asked, watched and ended.

use crate::calls::Given;
use crate::wire;
use std::io::{Read, Write};
use std::process::{Child, ChildStdin, ChildStdout, Command, Stdio};
use std::sync::mpsc::{channel, Receiver, RecvTimeoutError, Sender};
use std::time::Duration;

/// What came back for a request.
#[derive(Clone, Debug, PartialEq, Eq)]
pub enum Reply {
    /// A whole answer, beginning with `a`.
    Answer(Vec<u8>),
    /// `x`, and then nothing more.
    Damaged,
    /// Something else; in words.
    Broken(String),
}

/// How long one answer may take.
const PATIENCE: Duration = Duration::from_secs(60);

pub struct Driver {
    command: Vec<String>,
    running: Option<Running>,
}

struct Running {
    child: Child,
    questions: Sender<Question>,
    replies: Receiver<Reply>,
}

struct Question {
    bytes: Vec<u8>,
    /// The lengths that the answer has; none where `x` is to come.
    given: Option<Given>,
    /// Close standard input behind these bytes.
    last: bool,
}

impl Driver {
    pub fn new(command: &[String]) -> Driver {
        Driver { command: command.to_vec(), running: None }
    }

    fn running(&mut self) -> Result<&mut Running, String> {
        if self.running.is_none() {
            self.running = Some(start(&self.command)?);
        }
        Ok(self.running.as_mut().expect("just started"))
    }

    /// Sends a whole request and waits for its answer.
    pub fn ask(&mut self, request: &wire::Request) -> Reply {
        let bytes = wire::request_bytes(request);
        let given = Some(request.given.clone());
        let reply = self.send(Question { bytes, given, last: false });
        if !matches!(reply, Reply::Answer(_)) {
            self.abandon();
        }
        reply
    }

    /// Sends bytes that are no request; the program must say `x` and stop.
    pub fn ask_damaged(&mut self, bytes: &[u8], last: bool) -> Reply {
        let reply = self.send(Question { bytes: bytes.to_vec(), given: None, last });
        self.abandon();
        reply
    }

    fn send(&mut self, question: Question) -> Reply {
        let running = match self.running() {
            Ok(running) => running,
            Err(error) => return Reply::Broken(error),
        };
        if running.questions.send(question).is_err() {
            return Reply::Broken("the program is gone".to_string());
        }
        match running.replies.recv_timeout(PATIENCE) {
            Ok(reply) => reply,
            Err(RecvTimeoutError::Timeout) => {
                Reply::Broken(format!("no answer in {} seconds", PATIENCE.as_secs()))
            }
            Err(RecvTimeoutError::Disconnected) => Reply::Broken("the program is gone".to_string()),
        }
    }

    /// Ends the input; the program must stop and have no more to say.
    pub fn stop(&mut self) -> Result<(), String> {
        let Some(running) = self.running.take() else { return Ok(()) };
        let Running { mut child, questions, replies } = running;
        drop(questions);
        let quiet = match replies.recv_timeout(PATIENCE) {
            Ok(Reply::Answer(rest)) if rest.is_empty() => Ok(()),
            Ok(Reply::Answer(rest)) => Err(format!("{} bytes after the last answer", rest.len())),
            Ok(other) => Err(format!("at the end of input: {other:?}")),
            Err(_) => Err("the program does not stop at the end of input".to_string()),
        };
        if quiet.is_err() {
            let _ = child.kill();
        }
        let status = child.wait();
        quiet?;
        match status {
            Ok(status) if status.code().is_none() => Err(format!("the program ended by {status}")),
            _ => Ok(()),
        }
    }

    /// Ends a program that is in no known state.
    fn abandon(&mut self) {
        if let Some(mut running) = self.running.take() {
            let _ = running.child.kill();
            let _ = running.child.wait();
        }
    }
}

impl Drop for Driver {
    fn drop(&mut self) {
        self.abandon();
    }
}

fn start(command: &[String]) -> Result<Running, String> {
    let mut child = Command::new(&command[0])
        .args(&command[1..])
        .stdin(Stdio::piped())
        .stdout(Stdio::piped())
        .spawn()
        .map_err(|error| format!("cannot start {}: {error}", command[0]))?;
    let to = child.stdin.take().expect("a pipe");
    let from = child.stdout.take().expect("a pipe");
    let (questions, incoming) = channel();
    let (outgoing, replies) = channel();
    std::thread::spawn(move || serve(to, from, incoming, outgoing));
    Ok(Running { child, questions, replies })
}

/// Writes each question and reads its reply; at the end what else comes.
fn serve(to: ChildStdin, mut from: ChildStdout, incoming: Receiver<Question>, outgoing: Sender<Reply>) {
    let mut to = Some(to);
    for question in incoming {
        let mut written = Ok(());
        if let Some(pipe) = to.as_mut() {
            written = pipe.write_all(&question.bytes).and_then(|_| pipe.flush());
        }
        if question.last {
            to = None;
        }
        let reply = match &question.given {
            Some(given) => match written {
                Ok(()) => answer(&mut from, given),
                Err(error) => Reply::Broken(format!("the program does not read: {error}")),
            },
            None => damaged(&mut from),
        };
        if outgoing.send(reply).is_err() {
            return;
        }
    }
    drop(to);
    let mut rest = Vec::new();
    let _ = match from.read_to_end(&mut rest) {
        Ok(_) => outgoing.send(Reply::Answer(rest)),
        Err(error) => outgoing.send(Reply::Broken(error.to_string())),
    };
}

fn answer(from: &mut ChildStdout, given: &Given) -> Reply {
    let mut bytes = vec![0; wire::ANSWER_HEAD];
    if let Err(error) = from.read_exact(&mut bytes[..1]) {
        return Reply::Broken(format!("the program ended without an answer: {error}"));
    }
    if bytes[0] != wire::ANSWERED {
        return Reply::Broken(format!("an answer that begins with byte {:02x}", bytes[0]));
    }
    if let Err(error) = from.read_exact(&mut bytes[1..]) {
        return Reply::Broken(format!("the program ended inside an answer: {error}"));
    }
    let rest = wire::answer_rest(&bytes, given);
    let most = 4 * 3 * wire::MOST_AREA + wire::MOST_OUTPUT;
    if rest > most {
        return Reply::Broken(format!("an answer with a held part too long: {rest} bytes to come"));
    }
    bytes.resize(wire::ANSWER_HEAD + rest, 0);
    match from.read_exact(&mut bytes[wire::ANSWER_HEAD..]) {
        Ok(()) => Reply::Answer(bytes),
        Err(error) => Reply::Broken(format!("the program ended inside an answer: {error}")),
    }
}

fn damaged(from: &mut ChildStdout) -> Reply {
    let mut bytes = Vec::new();
    match from.read_to_end(&mut bytes) {
        Err(error) => Reply::Broken(error.to_string()),
        Ok(_) if bytes == [wire::DAMAGED] => Reply::Damaged,
        Ok(_) => Reply::Broken(format!("to a damaged request: {} bytes, {}", bytes.len(), crate::show::hex(&bytes[..bytes.len().min(20)]))),
    }
}
