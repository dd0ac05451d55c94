//! `plain_rust PLANT SCHEDULE` and `plain_rust PLANT --until MS`: what `plc sim` and `plc run` do on a working plant of
//! `plants.py`, as a plain Rust program does it, to be timed beside them. It reads no other plants: each network is one
//! row of contacts and coils, all variables are BOOL, no task takes from another, each is due at each millisecond, and a
//! schedule only evaluates. Each evaluation is kept: what was asked, the states before and after, and what it gave. A
//! variable takes 4 bytes, as one of any kind would; states are shared where nothing changed.
//!
//! A run has a thread and a journal for each resource and one book under a lock. Behind it each entry is compared with
//! what its journal has next and with its command, and all are made once more in one thread.
use std::collections::HashMap;
use std::io::{self, BufWriter, Write};
use std::sync::mpsc::{channel, Receiver};
use std::sync::{Arc, Mutex};
use std::{env, fs, thread};

enum Step {
    Rail,
    Contact { place: usize, negated: bool },
    Coil { number: usize },
}

struct Network {
    steps: Vec<Step>,
    coils: Vec<usize>,
}

struct Program {
    names: Vec<String>,
    places: HashMap<String, usize>,
    outputs: Vec<usize>,
    networks: Vec<Network>,
}

#[derive(Clone)]
struct Task {
    name: String,
    instance: String,
    bindings: Vec<(usize, u32)>,
    state: Arc<Vec<u32>>,
    number: u32,
}

#[allow(dead_code)]
struct Evaluation {
    ticket: usize,
    task: usize,
    number: u32,
    elapsed: u32,
    inputs: Vec<(u32, u32)>,
    before: Arc<Vec<u32>>,
    outputs: Vec<u32>,
    after: Arc<Vec<u32>>,
}

#[derive(Clone)]
struct Command {
    ticket: usize,
    task: usize,
    elapsed: u32,
    inputs: Vec<(u32, u32)>,
}

fn network(program: &Program, above: &str, row: &str) -> Network {
    let (mut steps, mut coils) = (vec![Step::Rail], Vec::new());
    let mut at = 1;
    while at + 2 < row.len() {
        let mark = &row[at..at + 3];
        let name = || program.places[above[at..].split_whitespace().next().unwrap()];
        match mark {
            "| |" | "|/|" => steps.push(Step::Contact { place: name(), negated: mark == "|/|" }),
            "( )" => {
                steps.push(Step::Coil { number: coils.len() });
                coils.push(name());
            }
            _ => {
                at += 1;
                continue;
            }
        }
        at += 3;
    }
    Network { steps, coils }
}

fn read_plant(text: &str) -> (Program, Vec<Task>) {
    let mut program = Program { names: vec![], places: HashMap::new(), outputs: vec![], networks: vec![] };
    let (mut tasks, mut resource, mut above) = (Vec::new(), String::new(), "");
    for line in text.lines() {
        let words: Vec<&str> = line.split(|c: char| " ,:;().=".contains(c)).filter(|it| !it.is_empty()).collect();
        match words.first() {
            Some(&kind @ ("VAR" | "VAR_INPUT" | "VAR_OUTPUT")) => {
                for name in words[1..].iter().take_while(|it| **it != "BOOL") {
                    let place = program.names.len();
                    program.names.push(name.to_string());
                    program.places.insert(name.to_string(), place);
                    if kind == "VAR_OUTPUT" {
                        program.outputs.push(place);
                    }
                }
            }
            Some(&"RESOURCE") => resource = words[1].to_string(),
            Some(&"PROGRAM") if words.len() > 2 => {
                let bindings = words[5..].chunks(2).map(|it| (program.places[it[0]], it[1][3..].parse().unwrap())).collect();
                tasks.push(Task {
                    name: format!("{resource}.{}", words[3]),
                    instance: words[1].to_string(),
                    bindings,
                    state: Arc::new(vec![0; program.names.len()]),
                    number: 0,
                });
            }
            _ if line.starts_with('+') => {
                let made = network(&program, above, line);
                program.networks.push(made);
            }
            _ => {}
        }
        above = line;
    }
    (program, tasks)
}

fn scan(program: &Program, state: &mut [u32]) {
    let mut links = [false; 80];
    for network in &program.networks {
        let mut on = false;
        for step in &network.steps {
            match step {
                Step::Rail => on = true,
                Step::Contact { place, negated } => on = on && (state[*place] != 0) != *negated,
                Step::Coil { number } => links[*number] = on,
            }
        }
        for (number, place) in network.coils.iter().enumerate() {
            state[*place] = links[number] as u32;
        }
    }
}

fn evaluate(program: &Program, it: &mut Task, command: Command) -> Evaluation {
    let Command { ticket, task, elapsed, inputs } = command;
    let before = it.state.clone();
    let mut after = before.to_vec();
    for (place, address) in &it.bindings {
        after[*place] = inputs.iter().find(|it| it.0 == *address).map_or(0, |it| it.1);
    }
    scan(program, &mut after);
    let outputs = program.outputs.iter().map(|place| after[*place]).collect();
    it.state = if after == *before { before.clone() } else { Arc::new(after) };
    it.number += 1;
    Evaluation { ticket, task, number: it.number, elapsed, inputs, before, outputs, after: it.state.clone() }
}

fn tell(out: &mut impl Write, program: &Program, tasks: &[Task], place: usize, it: &Evaluation) -> io::Result<()> {
    write!(out, "EVAL {place} {} 1.{} TAKES - GIVES", tasks[it.task].name, it.number)?;
    for (place, value) in program.outputs.iter().zip(&it.outputs) {
        write!(out, " {}.{}={value}", tasks[it.task].instance, program.names[*place])?;
    }
    writeln!(out)
}

fn simulate(program: &Program, mut tasks: Vec<Task>, schedule: &str, out: &mut impl Write) -> io::Result<()> {
    let by_name: HashMap<String, usize> = tasks.iter().enumerate().map(|(k, it)| (it.name.clone(), k)).collect();
    let mut log = Vec::new();
    for line in schedule.lines() {
        let words: Vec<&str> = line.split_whitespace().collect();
        let task = by_name[words[1]];
        let inputs = words[3..].iter().map(|it| it[3..].split_once('=').unwrap());
        let inputs = inputs.map(|it| (it.0.parse().unwrap(), it.1.parse().unwrap())).collect();
        let command = Command { ticket: log.len() + 1, task, elapsed: words[2].parse().unwrap(), inputs };
        log.push(evaluate(program, &mut tasks[task], command));
        tell(out, program, &tasks, log.len(), &log[log.len() - 1])?;
    }
    Ok(())
}

/// What one resource makes of the commands that come to it, each entered before it is noted.
fn serve(program: &Program, mut task: Task, book: &Mutex<Vec<Arc<Evaluation>>>, inbox: Receiver<Command>) -> Vec<Arc<Evaluation>> {
    let mut journal = Vec::new();
    for command in inbox {
        let made = Arc::new(evaluate(program, &mut task, command));
        book.lock().unwrap().push(made.clone());
        journal.push(made);
    }
    journal
}

/// Whether the same was asked of both.
fn is_alike(one: &Evaluation, other: &Evaluation) -> bool {
    (one.ticket, one.task, one.number, one.elapsed) == (other.ticket, other.task, other.number, other.elapsed)
        && one.inputs == other.inputs
        && one.before == other.before
}

fn answers(command: &Command, it: &Evaluation) -> bool {
    (command.ticket, command.task, command.elapsed) == (it.ticket, it.task, it.elapsed) && command.inputs == it.inputs
}

fn run(program: &Program, tasks: Vec<Task>, until: usize, out: &mut impl Write) -> io::Result<()> {
    let places = (1..=until).flat_map(|_| 0..tasks.len()).enumerate();
    let commands: Vec<Command> = places.map(|(k, task)| Command { ticket: k + 1, task, elapsed: 1, inputs: vec![] }).collect();
    let book = Mutex::new(Vec::new());
    let journals: Vec<Vec<Arc<Evaluation>>> = thread::scope(|scope| {
        let start = |task: &Task| {
            let (door, inbox) = channel();
            let (task, book) = (task.clone(), &book);
            (door, scope.spawn(move || serve(program, task, book, inbox)))
        };
        let (doors, threads): (Vec<_>, Vec<_>) = tasks.iter().map(start).unzip();
        for command in &commands {
            doors[command.task].send(command.clone()).unwrap();
        }
        drop(doors);
        threads.into_iter().map(|it| it.join().unwrap()).collect()
    });
    let book = book.into_inner().unwrap();
    let mut made: Vec<_> = journals.iter().map(|it| it.iter()).collect();
    assert!(book.iter().all(|it| is_alike(it, made[it.task].next().unwrap()) && answers(&commands[it.ticket - 1], it)));
    for (k, it) in book.iter().enumerate() {
        tell(out, program, &tasks, k + 1, it)?;
    }
    let mut again = tasks.clone();
    let ask = |it: &Evaluation| Command { ticket: it.ticket, task: it.task, elapsed: it.elapsed, inputs: it.inputs.clone() };
    let log: Vec<Evaluation> = book.iter().map(|it| evaluate(program, &mut again[it.task], ask(it))).collect();
    let equal = log.iter().zip(&book).all(|(one, other)| is_alike(one, other));
    writeln!(out, "REPLAY {}", if equal { "equal" } else { "differs" })
}

fn main() -> io::Result<()> {
    let words: Vec<String> = env::args().skip(1).collect();
    let (program, tasks) = read_plant(&fs::read_to_string(&words[0])?);
    let mut out = BufWriter::new(io::stdout().lock());
    match words[1].as_str() {
        "--until" => run(&program, tasks, words[2].parse().unwrap(), &mut out)?,
        schedule => simulate(&program, tasks, &fs::read_to_string(schedule)?, &mut out)?,
    }
    out.flush()
}
