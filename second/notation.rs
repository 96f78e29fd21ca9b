//! The text notation of cases: from a text to a family, that is a program part and the
//! cases over it. vectors/README.md describes the notation. No bytes are made here.

/// A cell line: its name, then value, owner and sharing as they are to be written.
pub struct CellLine {
    pub name: String,
    pub value: i32,
    pub owner: u8,
    pub sharing: u8,
}

/// A line of a thread: its words, with the line's number for complaints.
pub struct CodeLine {
    pub number: usize,
    pub words: Vec<String>,
}

#[derive(Default)]
pub struct ThreadPart {
    pub count: Option<u8>,
    pub code: Vec<CodeLine>,
    /// Label and the position it names.
    pub labels: Vec<(String, usize)>,
}

/// What is done to the bytes after they are put together, in order.
pub enum Edit {
    Set(usize, Vec<u8>),
    Cut(usize),
    Append(Vec<u8>),
    /// Zeros up to this length.
    Pad(usize),
    Relength,
}

#[derive(Default)]
pub struct CasePart {
    pub name: String,
    pub why: String,
    pub bytes: Option<Vec<u8>>,
    pub schedule: Vec<u8>,
    pub item_count: Option<u16>,
    pub edits: Vec<Edit>,
    /// The expected output, line by line.
    pub expected: Vec<String>,
}

#[derive(Default)]
pub struct Family {
    pub origin: Vec<String>,
    pub thread_count: Option<u8>,
    pub cell_count: Option<u8>,
    pub depth: u8,
    pub cells: Vec<CellLine>,
    pub threads: Vec<ThreadPart>,
    pub cases: Vec<CasePart>,
}

pub fn parse(text: &str) -> Result<Family, String> {
    let mut family = Family { depth: 2, ..Family::default() };
    for (index, line) in text.lines().enumerate() {
        let number = index + 1;
        let line = line.split('#').next().unwrap_or("").trim();
        if !line.is_empty() {
            family.line(number, line).map_err(|what| format!("line {number}: {what}"))?;
        }
    }
    family.complete()?;
    Ok(family)
}

impl Family {
    fn line(&mut self, number: usize, line: &str) -> Result<(), String> {
        let (word, rest) = line.split_once(char::is_whitespace).unwrap_or((line, ""));
        let rest = rest.trim();
        if word == "case" {
            let name = rest.to_string();
            self.cases.push(CasePart { name, ..CasePart::default() });
            Ok(())
        } else if let Some(case) = self.cases.last_mut() {
            case.line(word, rest, line)
        } else {
            self.program_line(number, word, rest)
        }
    }

    fn program_line(&mut self, number: usize, word: &str, rest: &str) -> Result<(), String> {
        match word {
            "from" => self.origin.push(rest.to_string()),
            "threads" => self.thread_count = Some(whole(rest)?),
            "cells" => self.cell_count = Some(whole(rest)?),
            "depth" => self.depth = whole(rest)?,
            "cell" => self.cells.push(cell_line(rest)?),
            "thread" => self.threads.push(thread_line(rest, self.threads.len() + 1)?),
            _ => {
                let thread = self.threads.last_mut().ok_or(format!("unknown word {word}"))?;
                thread.code_line(number, word, rest);
            }
        }
        Ok(())
    }

    /// Every file says where it is from; every case says why and what is expected.
    fn complete(&self) -> Result<(), String> {
        if self.origin.is_empty() {
            return Err("no line `from`".into());
        }
        for (index, case) in self.cases.iter().enumerate() {
            if case.why.is_empty() || case.expected.is_empty() {
                return Err(format!("case {}: needs `why` and `answer`", case.name));
            }
            if self.cases[..index].iter().any(|other| other.name == case.name) {
                return Err(format!("case {}: named twice", case.name));
            }
        }
        if self.cases.is_empty() {
            return Err("no case".into());
        }
        Ok(())
    }
}

impl ThreadPart {
    fn code_line(&mut self, number: usize, word: &str, rest: &str) {
        if let Some(label) = word.strip_suffix(':') {
            self.labels.push((label.to_string(), self.code.len()));
            return;
        }
        let mut words = vec![word.to_string()];
        words.extend(rest.split_whitespace().map(String::from));
        self.code.push(CodeLine { number, words });
    }
}

impl CasePart {
    fn line(&mut self, word: &str, rest: &str, line: &str) -> Result<(), String> {
        match word {
            "why" => self.why = rest.to_string(),
            "bytes" => self.bytes.get_or_insert_with(Vec::new).extend(hex(rest)?),
            "schedule" => self.schedule.extend(items(rest)?),
            "items" => self.item_count = Some(whole(rest)?),
            "set" => {
                let (at, new) = rest.split_once(' ').ok_or("set OFFSET HEX")?;
                self.edits.push(Edit::Set(whole(at)?, hex(new)?));
            }
            "cut" => self.edits.push(Edit::Cut(whole(rest)?)),
            "append" => self.edits.push(Edit::Append(hex(rest)?)),
            "pad" => self.edits.push(Edit::Pad(whole(rest)?)),
            "relength" => self.edits.push(Edit::Relength),
            "answer" | "values" | "memory" => self.expected.push(line.to_string()),
            _ => return Err(format!("unknown word {word}")),
        }
        Ok(())
    }
}

/// `NAME VALUE`, then `owner N`, then `local`, `shared` or `sharing N`.
fn cell_line(rest: &str) -> Result<CellLine, String> {
    let words: Vec<&str> = rest.split_whitespace().collect();
    let [name, value, marks @ ..] = words.as_slice() else {
        return Err("cell NAME VALUE [owner N] [local|shared|sharing N]".into());
    };
    let mut cell = CellLine { name: name.to_string(), value: whole(value)?, owner: 0, sharing: 1 };
    let mut marks = marks.iter();
    while let Some(mark) = marks.next() {
        let mut operand = || whole(marks.next().ok_or(format!("{mark} needs a number"))?);
        match *mark {
            "owner" => cell.owner = operand()?,
            "sharing" => cell.sharing = operand()?,
            "local" => cell.sharing = 0,
            "shared" => cell.sharing = 1,
            _ => return Err(format!("unknown mark {mark}")),
        }
    }
    Ok(cell)
}

/// `N`, the thread's own number, and perhaps `count N`.
fn thread_line(rest: &str, number: usize) -> Result<ThreadPart, String> {
    let words: Vec<&str> = rest.split_whitespace().collect();
    let count = match words.as_slice() {
        [_] => None,
        [_, "count", count] => Some(whole(count)?),
        _ => return Err("thread N [count N]".into()),
    };
    if words[0] != number.to_string() {
        return Err(format!("thread {number} is next"));
    }
    Ok(ThreadPart { count, ..ThreadPart::default() })
}

/// A decimal number of any of the sizes used here.
pub fn whole<T: std::str::FromStr>(word: &str) -> Result<T, String> {
    word.parse().map_err(|_| format!("not a fitting number: {word}"))
}

/// Item bytes; `17*8` is eight times 17.
fn items(rest: &str) -> Result<Vec<u8>, String> {
    let mut bytes = Vec::new();
    for word in rest.split_whitespace() {
        let (item, times) = word.split_once('*').unwrap_or((word, "1"));
        bytes.extend(vec![whole::<u8>(item)?; whole(times)?]);
    }
    Ok(bytes)
}

/// Hexadecimal digits in pairs, blanks anywhere between them.
pub fn hex(text: &str) -> Result<Vec<u8>, String> {
    let digits: Vec<char> = text.chars().filter(|c| !c.is_whitespace()).collect();
    let pairs = digits.chunks(2).map(|pair| {
        let pair: String = pair.iter().collect();
        match pair.len() {
            2 => u8::from_str_radix(&pair, 16).map_err(|_| format!("not hexadecimal: {pair}")),
            _ => Err("an odd number of hexadecimal digits".into()),
        }
    });
    pairs.collect()
}
