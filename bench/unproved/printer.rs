//! A printer without proofs, to compare the proved one's speed with: `printer PROGRAM` reads a program text
//! (all instructions with marks, labels, `@index`, tasks, `.word` and `.space` in both regions), and writes
//! its canonical text: `.start`, the tasks, the instructions with each task's label on the line before, and
//! the bytes of both regions as words. Mnemonics and labels are looked up in hash maps, and the task that
//! begins at a place in a table.

use std::collections::HashMap;
use std::io::{self, Write};
use std::{env, fmt, fs, process};

const CODE: usize = 4096;
const REGION: usize = 65_536;

#[derive(Clone, Copy)]
enum Shape {
    Three,
    Shift,
    Signed,
    Unsigned,
    Upper,
    Two,
    One,
    Based,
    BranchTwo,
    BranchOne,
    Jump,
    Release,
    Nothing,
}

use Shape::*;

const TABLE: [(&str, Shape); 48] = [
    ("addu", Three), ("subu", Three), ("and", Three), ("or", Three), ("xor", Three), ("nor", Three), ("slt", Three),
    ("sltu", Three), ("sll", Shift), ("srl", Shift), ("sra", Shift), ("sllv", Three), ("srlv", Three), ("srav", Three),
    ("addiu", Signed), ("slti", Signed), ("sltiu", Signed), ("andi", Unsigned), ("ori", Unsigned), ("xori", Unsigned),
    ("lui", Upper), ("mult", Two), ("multu", Two), ("mfhi", One), ("mflo", One), ("mthi", One), ("mtlo", One),
    ("lw", Based), ("lh", Based), ("lhu", Based), ("lb", Based), ("lbu", Based), ("sw", Based), ("sh", Based),
    ("sb", Based), ("beq", BranchTwo), ("bne", BranchTwo), ("blez", BranchOne), ("bgtz", BranchOne),
    ("bltz", BranchOne), ("bgez", BranchOne), ("j", Jump), ("jal", Jump), ("jr", One), ("jalr", Two), ("out", One),
    ("release", Release), ("halt", Nothing),
];

/// An instruction: its row of the table, its registers, its number or place, and the set of a `release`.
struct Instruction {
    row: u8,
    registers: [u8; 3],
    number: i32,
    set: u64,
    marks: &'static str,
}

struct Task<'t> {
    name: &'t str,
    create: u64,
    targets: Vec<u32>,
}

#[derive(Default)]
struct Program<'t> {
    start: Option<u32>,
    tasks: Vec<Task<'t>>,
    entries: Vec<u32>,
    code: Vec<Instruction>,
    bytes: Vec<u8>,
    fixed: Vec<u8>,
}

#[derive(Debug)]
struct Fault {
    line: usize,
    what: &'static str,
}

impl fmt::Display for Fault {
    fn fmt(&self, out: &mut fmt::Formatter) -> fmt::Result {
        write!(out, "line {}: {}", self.line, self.what)
    }
}

type Read<T> = Result<T, &'static str>;

fn number(text: &str, least: i64, most: i64) -> Read<i64> {
    let (sign, digits) = text.strip_prefix('-').map_or((1, text), |rest| (-1, rest));
    let value = match digits.strip_prefix("0x") {
        Some(digits) => i64::from_str_radix(digits, 16),
        None => digits.parse(),
    };
    match value {
        Ok(value) if (least..=most).contains(&(sign * value)) => Ok(sign * value),
        _ => Err("a number"),
    }
}

fn register(text: &str, count: u8) -> Read<u8> {
    match text.strip_prefix('$').and_then(|digits| digits.parse().ok()) {
        Some(register) if register < count => Ok(register),
        _ => Err("a register"),
    }
}

fn registers(text: &str) -> Read<u64> {
    if text == "-" {
        return Ok(0);
    }
    text.split(',').try_fold(0, |set, name| Ok(set | 1 << register(name, 34)?))
}

fn is_name(text: &str) -> bool {
    text.len() <= 32
        && text.starts_with(|first: char| first.is_ascii_alphabetic() || first == '_')
        && text.bytes().all(|byte| byte.is_ascii_alphanumeric() || byte == b'_')
}

fn place(text: &str, labels: &HashMap<&str, u32>) -> Read<u32> {
    match text.strip_prefix('@') {
        Some(digits) => digits.parse().ok().filter(|index| *index <= CODE as u32).ok_or("a place"),
        None => labels.get(text).copied().ok_or("a label"),
    }
}

fn marks(text: &str) -> Read<&'static str> {
    Ok(match text {
        "" => "",
        "!f" => " !f",
        "!s" => " !s",
        "!st" => " !st",
        "!sn" => " !sn",
        "!f !s" => " !f !s",
        "!f !st" => " !f !st",
        "!f !sn" => " !f !sn",
        _ => return Err("marks"),
    })
}

fn instruction(statement: &str, rows: &HashMap<&str, u8>, labels: &HashMap<&str, u32>) -> Read<Instruction> {
    let (plain, marked) = statement.split_at(statement.find('!').unwrap_or(statement.len()));
    let (mnemonic, rest) = plain.trim_end().split_once(' ').unwrap_or((plain.trim_end(), ""));
    let row = *rows.get(mnemonic).ok_or("a mnemonic")?;
    let shape = TABLE[row as usize].1;
    let mut made = Instruction { row, registers: [0; 3], number: 0, set: 0, marks: marks(marked)? };
    if let Release = shape {
        made.set = registers(rest.trim())?;
        return Ok(made);
    }
    let mut operands = rest.split(',').map(str::trim);
    let mut next = || operands.next().filter(|word| !word.is_empty()).ok_or("an operand");
    let count = match shape {
        Three => 3,
        Shift | Signed | Unsigned | Two | BranchTwo => 2,
        Upper | One | Based | BranchOne => 1,
        Jump | Release | Nothing => 0,
    };
    for index in 0..count {
        made.registers[index] = register(next()?, 32)?;
    }
    made.number = match shape {
        Shift => number(next()?, 0, 31)? as i32,
        Signed => number(next()?, -0x8000, 0x7fff)? as i32,
        Unsigned | Upper => number(next()?, 0, 0xffff)? as i32,
        BranchTwo | BranchOne | Jump => place(next()?, labels)? as i32,
        Based => {
            let (offset, base) = next()?.strip_suffix(')').and_then(|word| word.split_once('(')).ok_or("n(base)")?;
            made.registers[1] = register(base, 32)?;
            number(offset, -0x8000, 0x7fff)? as i32
        }
        Three | Two | One | Release | Nothing => 0,
    };
    match operands.next() {
        Some(word) if !word.is_empty() => Err("the end of the line"),
        _ => Ok(made),
    }
}

fn put(bytes: &mut Vec<u8>, more: &[u8]) -> Read<()> {
    if bytes.len() + more.len() > REGION {
        return Err("room in the region");
    }
    bytes.extend_from_slice(more);
    Ok(())
}

#[derive(Clone, Copy, PartialEq)]
enum Section {
    Text,
    Data,
    Fixed,
}

/// What the first reading leaves for the second, in which labels are known.
#[derive(Default)]
struct Later<'t> {
    start: Option<(usize, &'t str)>,
    tasks: Vec<(usize, &'t str)>,
    code: Vec<(usize, &'t str)>,
    labels: HashMap<&'t str, u32>,
}

fn statement<'t>(at: usize, line: &'t str, section: &mut Section, program: &mut Program<'t>, later: &mut Later<'t>) -> Read<()> {
    let (word, rest) = line.split_once(' ').unwrap_or((line, ""));
    let rest = rest.trim();
    match (word, *section) {
        (".text", _) => *section = Section::Text,
        (".data", _) => *section = Section::Data,
        (".rodata", _) => *section = Section::Fixed,
        (".start", _) => later.start = Some((at, rest)),
        (".task", _) => later.tasks.push((at, rest)),
        (".word", Section::Data) => put(&mut program.bytes, &(number(rest, 0, u32::MAX.into())? as u32).to_le_bytes())?,
        (".word", Section::Fixed) => put(&mut program.fixed, &(number(rest, 0, u32::MAX.into())? as u32).to_le_bytes())?,
        (".space", Section::Data) => put(&mut program.bytes, &vec![0; number(rest, 0, REGION as i64)? as usize])?,
        (".space", Section::Fixed) => put(&mut program.fixed, &vec![0; number(rest, 0, REGION as i64)? as usize])?,
        (_, Section::Text) if later.code.len() < CODE => later.code.push((at, line)),
        _ => return Err("a statement"),
    }
    Ok(())
}

fn task<'t>(text: &'t str, labels: &HashMap<&str, u32>) -> Read<(Task<'t>, u32)> {
    let mut words = text.split_ascii_whitespace();
    let name = words.next().filter(|name| is_name(name)).ok_or("a name")?;
    let create = registers(words.next().and_then(|word| word.strip_prefix("create=")).ok_or("create=")?)?;
    let targets = match words.next().and_then(|word| word.strip_prefix("targets=")).ok_or("targets=")? {
        "-" => Vec::new(),
        names => names.split(',').map(|name| place(name, labels)).collect::<Read<Vec<_>>>()?,
    };
    if targets.len() > 16 {
        return Err("at most 16 targets");
    }
    Ok((Task { name, create, targets }, place(name, labels)?))
}

fn assembled(text: &str) -> Result<Program<'_>, Fault> {
    let (mut program, mut later, mut section) = (Program::default(), Later::default(), Section::Text);
    for (at, line) in text.lines().enumerate() {
        let mut line = line.split('#').next().unwrap_or("").trim();
        let fault = |what| Fault { line: at + 1, what };
        while let Some((label, rest)) = line.split_once(':') {
            if !is_name(label) || later.labels.insert(label, later.code.len() as u32).is_some() {
                return Err(fault("a new label"));
            }
            line = rest.trim_start();
        }
        if !line.is_empty() {
            statement(at + 1, line, &mut section, &mut program, &mut later).map_err(fault)?;
        }
    }
    let rows: HashMap<_, _> = TABLE.iter().zip(0..).map(|((name, _), row)| (*name, row)).collect();
    for (line, text) in &later.code {
        program.code.push(instruction(text, &rows, &later.labels).map_err(|what| Fault { line: *line, what })?);
    }
    for (line, text) in &later.tasks {
        let (task, entry) = task(text, &later.labels).map_err(|what| Fault { line: *line, what })?;
        program.tasks.push(task);
        program.entries.push(entry);
    }
    if let Some((line, name)) = later.start {
        program.start = Some(place(name, &later.labels).map_err(|what| Fault { line, what })?);
    }
    Ok(program)
}

/// The names of the tasks by the place where they begin.
struct Names<'t>(Vec<Option<&'t str>>);

impl<'t> Names<'t> {
    fn of(program: &Program<'t>) -> Names<'t> {
        let mut names = vec![None; CODE + 1];
        for (task, entry) in program.tasks.iter().zip(&program.entries) {
            names[*entry as usize].get_or_insert(task.name);
        }
        Names(names)
    }

    fn write(&self, out: &mut Vec<u8>, place: u32) -> io::Result<()> {
        match self.0[place as usize] {
            Some(name) => out.write_all(name.as_bytes()),
            None => write!(out, "@{place}"),
        }
    }
}

fn write_registers(out: &mut Vec<u8>, set: u64) -> io::Result<()> {
    let mut comma = "";
    for register in (0..34).filter(|register| set >> register & 1 == 1) {
        write!(out, "{comma}${register}")?;
        comma = ",";
    }
    Ok(())
}

fn write_task(out: &mut Vec<u8>, names: &Names, task: &Task) -> io::Result<()> {
    write!(out, ".task {} create=", task.name)?;
    if task.create == 0 {
        out.push(b'-');
    }
    write_registers(out, task.create)?;
    out.extend_from_slice(b" targets=");
    if task.targets.is_empty() {
        out.push(b'-');
    }
    for (index, target) in task.targets.iter().enumerate() {
        if index > 0 {
            out.push(b',');
        }
        names.write(out, *target)?;
    }
    out.push(b'\n');
    Ok(())
}

fn write_instruction(out: &mut Vec<u8>, names: &Names, instruction: &Instruction) -> io::Result<()> {
    let (name, shape) = TABLE[instruction.row as usize];
    let ([a, b, c], n) = (instruction.registers, instruction.number);
    out.extend_from_slice(name.as_bytes());
    match shape {
        Three => write!(out, " ${a},${b},${c}")?,
        Shift | Signed | Unsigned => write!(out, " ${a},${b},{n}")?,
        Upper => write!(out, " ${a},{n}")?,
        Two => write!(out, " ${a},${b}")?,
        One => write!(out, " ${a}")?,
        Based => write!(out, " ${a},{n}(${b})")?,
        BranchTwo => write!(out, " ${a},${b},")?,
        BranchOne => write!(out, " ${a},")?,
        Jump | Release => out.push(b' '),
        Nothing => {}
    }
    match shape {
        BranchTwo | BranchOne | Jump => names.write(out, n as u32)?,
        Release => write_registers(out, instruction.set)?,
        _ => {}
    }
    out.extend_from_slice(instruction.marks.as_bytes());
    out.push(b'\n');
    Ok(())
}

fn write_region(out: &mut Vec<u8>, name: &str, bytes: &[u8]) -> io::Result<()> {
    if bytes.is_empty() {
        return Ok(());
    }
    writeln!(out, "{name}")?;
    let words = bytes.chunks_exact(4);
    let rest = words.remainder();
    for word in words {
        writeln!(out, ".word 0x{:08x}", u32::from_le_bytes([word[0], word[1], word[2], word[3]]))?;
    }
    for byte in rest {
        writeln!(out, ".byte 0x{byte:02x}")?;
    }
    Ok(())
}

fn write_program(out: &mut Vec<u8>, program: &Program) -> io::Result<()> {
    let names = Names::of(program);
    if let Some(name) = names.0[program.start.unwrap_or(0) as usize] {
        writeln!(out, ".start {name}")?;
    }
    for task in &program.tasks {
        write_task(out, &names, task)?;
    }
    for (index, instruction) in program.code.iter().enumerate() {
        if let Some(name) = names.0[index] {
            writeln!(out, "{name}:")?;
        }
        write_instruction(out, &names, instruction)?;
    }
    write_region(out, ".data", &program.bytes)?;
    write_region(out, ".rodata", &program.fixed)
}

fn main() {
    let words: Vec<_> = env::args().collect();
    let [_, path] = &words[..] else {
        eprintln!("printer PROGRAM");
        process::exit(2);
    };
    let text = fs::read_to_string(path).expect("the program");
    match assembled(&text) {
        Ok(program) => {
            let mut out = Vec::new();
            write_program(&mut out, &program).and_then(|()| io::stdout().write_all(&out)).expect("room");
        }
        Err(fault) => {
            println!("{fault}");
            process::exit(1);
        }
    }
}
