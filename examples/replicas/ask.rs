//! A client of replicas that needs only the standard library. Reads a script, sends each line as a question or as a change, and prints
//! rows and replies.
//!
//!     rustc --edition 2021 ask.rs && ./ask HOST:PORT [LOG] < SCRIPT
//!
//! `Replicas` keeps one connection and the highest number of the log that it has seen, so no answer is older than an earlier one.
//! replica/PROTOCOL.md defines subjects, headers and statuses. This client supports neither passwords nor TLS.

use std::collections::HashMap;
use std::io::{self, BufRead, BufReader, Error, ErrorKind, Read, Write};
use std::net::TcpStream;
use std::time::{Duration, Instant};

const NOT_NOW: [&str; 6] = ["unready", "unavailable", "behind", "memory", "orphaned", ""];

#[derive(Debug, Clone, PartialEq)]
pub enum Value {
    Int(i64),
    Text(String),
}

/// Rows, with the names and the types (INT or TEXT) of their columns.
#[derive(Debug)]
pub struct Rows {
    pub columns: Vec<String>,
    pub rows: Vec<Vec<Value>>,
}

struct Answer {
    headers: HashMap<String, String>,
    body: String,
}

/// Replicas that follow a log.
pub struct Replicas {
    address: String,
    log: String,
    identity: String,
    number: u64,
    seen: Option<Instant>,
    sent: u64,
    inbox: String,
    connection: Option<BufReader<TcpStream>>,
}

impl Replicas {
    /// The timeout of a request.
    const WAIT: Duration = Duration::from_secs(30);

    pub fn new(address: &str, log: &str) -> io::Result<Replicas> {
        let mut bytes = [0; 12];
        std::fs::File::open("/dev/urandom")?.read_exact(&mut bytes)?;
        let random: String = bytes.iter().map(|byte| format!("{byte:02x}")).collect();
        let (address, log, inbox) = (
            address.to_string(),
            log.to_string(),
            format!("_INBOX.{random}"),
        );
        Ok(Replicas {
            address,
            log,
            identity: String::new(),
            number: 0,
            seen: None,
            sent: 0,
            inbox,
            connection: None,
        })
    }

    /// Applies a script once, and returns its replies.
    pub fn change(&mut self, script: &str) -> io::Result<Vec<String>> {
        // The number sent with a new id must be recent, since replicas keep only recent ids.
        if self
            .seen
            .map_or(true, |seen| seen.elapsed() > Duration::from_secs(1))
        {
            self.ask("TABLES")?;
        }
        let id = format!("{}-{}", &self.inbox[7..], self.sent);
        let answer = self.request(
            "change",
            script,
            &[("Mmdb-Id", id), ("Mmdb-Since", self.number.to_string())],
        )?;
        Ok(answer.body.lines().map(String::from).collect())
    }

    /// Returns the rows of a question. The rows are at least as new as all answers that this object has received.
    pub fn ask(&mut self, question: &str) -> io::Result<Rows> {
        let answer = self.request(
            "ask",
            question,
            &[("Mmdb-At-Least", self.number.to_string())],
        )?;
        let columns: Vec<String> = match answer.headers.get("Mmdb-Columns") {
            Some(columns) => columns.split(", ").map(String::from).collect(),
            None => {
                return Ok(Rows {
                    columns: Vec::new(),
                    rows: Vec::new(),
                })
            }
        };
        let rows = answer
            .body
            .lines()
            .filter(|line| line.starts_with('('))
            .map(values_of)
            .collect();
        Ok(Rows { columns, rows })
    }

    /// Repeats a request until a replica answers, and returns the answer.
    fn request(
        &mut self,
        word: &str,
        body: &str,
        headers: &[(&str, String)],
    ) -> io::Result<Answer> {
        let until = Instant::now() + Self::WAIT;
        let mut head = String::from("NATS/1.0\r\n");
        for (name, value) in headers {
            head += &format!("{name}: {value}\r\n");
        }
        if !self.identity.is_empty() {
            head += &format!("Mmdb-Log: {}\r\n", self.identity);
        }
        head += "\r\n";
        while Instant::now() < until {
            match self.send(word, body, &head) {
                Ok(answer) => {
                    let status = answer.headers.get("Mmdb-Status").map_or("", String::as_str);
                    if status == "done" {
                        return self.take_place(answer);
                    }
                    if !NOT_NOW.contains(&status) {
                        return Err(Error::new(
                            ErrorKind::InvalidInput,
                            format!("{status}: {}", answer.body),
                        ));
                    }
                }
                Err(_) => self.connection = None,
            }
            std::thread::sleep(Duration::from_millis(100));
        }
        Err(Error::new(ErrorKind::TimedOut, "no replica answers"))
    }

    fn take_place(&mut self, answer: Answer) -> io::Result<Answer> {
        let wrong = || {
            Error::new(
                ErrorKind::InvalidData,
                "an answer without a number of the log",
            )
        };
        let number: u64 = answer
            .headers
            .get("Mmdb-Sequence")
            .and_then(|number| number.parse().ok())
            .ok_or_else(wrong)?;
        self.identity = answer.headers.get("Mmdb-Log").ok_or_else(wrong)?.clone();
        self.number = self.number.max(number);
        self.seen = Some(Instant::now());
        Ok(answer)
    }

    fn send(&mut self, word: &str, body: &str, head: &str) -> io::Result<Answer> {
        let connection = match &mut self.connection {
            Some(connection) => connection,
            none => none.insert(connect(&self.address, &self.inbox)?),
        };
        self.sent += 1;
        let reply = format!("{}.{}", self.inbox, self.sent);
        let (length, whole) = (head.len(), head.len() + body.len());
        write!(
            connection.get_mut(),
            "HPUB {}.{word} {reply} {length} {whole}\r\n{head}{body}\r\n",
            self.log
        )?;
        loop {
            let mut line = String::new();
            connection.read_line(&mut line)?;
            let words: Vec<&str> = line.split_whitespace().collect();
            match words.first() {
                Some(&"PING") => connection.get_mut().write_all(b"PONG\r\n")?,
                Some(&"MSG" | &"HMSG") => {
                    let answer = read_answer(connection, &words)?;
                    if words.get(1) == Some(&reply.as_str()) {
                        return Ok(answer);
                    }
                }
                Some(&"INFO" | &"PONG" | &"+OK") => {}
                _ => return Err(Error::new(ErrorKind::ConnectionAborted, line)),
            }
        }
    }
}

fn connect(address: &str, inbox: &str) -> io::Result<BufReader<TcpStream>> {
    let mut stream = TcpStream::connect(address)?;
    stream.set_read_timeout(Some(Duration::from_millis(2500)))?;
    let said =
        r#"{"verbose":false,"headers":true,"no_responders":true,"lang":"rust","version":"1"}"#;
    write!(stream, "CONNECT {said}\r\nSUB {inbox}.* 1\r\n")?;
    Ok(BufReader::new(stream))
}

/// Reads the message after a line `HMSG SUBJECT ID HEAD WHOLE` or `MSG SUBJECT ID WHOLE`.
fn read_answer(connection: &mut BufReader<TcpStream>, words: &[&str]) -> io::Result<Answer> {
    let wrong = |_| Error::new(ErrorKind::InvalidData, "a message without a length");
    let whole: usize = words[words.len() - 1].parse().map_err(wrong)?;
    let head: usize = if words[0] == "HMSG" {
        words[words.len() - 2].parse().map_err(wrong)?
    } else {
        0
    };
    let mut block = vec![0; whole + 2];
    connection.read_exact(&mut block)?;
    let text = |bytes: &[u8]| String::from_utf8_lossy(bytes).into_owned();
    let pairs = text(&block[..head.min(whole)]);
    let headers = pairs
        .lines()
        .filter_map(|line| line.split_once(':'))
        .map(|(name, value)| (name.into(), value.trim().into()));
    Ok(Answer {
        headers: headers.collect(),
        body: text(&block[head.min(whole)..whole]),
    })
}

/// Parses a row of a reply, such as `(1, 'it''s')`.
fn values_of(line: &str) -> Vec<Value> {
    let mut values = Vec::new();
    let mut signs = line.chars().peekable();
    while let Some(sign) = signs.next() {
        let mut text = String::new();
        if sign == '\'' {
            while let Some(next) = signs
                .next_if(|&next| next != '\'')
                .or_else(|| quote(&mut signs))
            {
                text.push(next);
            }
            values.push(Value::Text(text));
        } else if sign == '-' || sign.is_ascii_digit() {
            text.push(sign);
            while let Some(digit) = signs.next_if(char::is_ascii_digit) {
                text.push(digit);
            }
            values.extend(text.parse().map(Value::Int));
        }
    }
    values
}

/// Consumes a quote. Returns a quote if it is doubled, or `None` if it ends the text.
fn quote(signs: &mut std::iter::Peekable<std::str::Chars>) -> Option<char> {
    signs.next()?;
    signs.next_if_eq(&'\'')
}

fn main() -> io::Result<()> {
    let words: Vec<String> = std::env::args().collect();
    let mut replicas = Replicas::new(&words[1], words.get(2).map_or("mmdb", String::as_str))?;
    for line in io::stdin().lock().lines() {
        let line = line?;
        if ["SELECT", "SCAN", "SHOW"].contains(&line.split(' ').next().unwrap_or("")) {
            let found = replicas.ask(&line)?;
            println!("{:?}", found.columns);
            found.rows.iter().for_each(|row| println!("{row:?}"));
        } else {
            println!("{}", replicas.change(&line)?.join(" "));
        }
    }
    Ok(())
}
