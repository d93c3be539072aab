//! The stored jobs: tables as they are fitted and tables made to be hard, up to 64 candidates.
//!
//! Every answer is held to the definitions as far as that can be done without a search: each set
//! is an irredundant cover, sets rise from the start, the cost is that of the set. That no set
//! is left out and none is cheaper needs a search; where it is given up the job is checked in part.
//! Which covers V has is in `stored/ranges.rs`.
//! Every job is held to document 000, too, and each of its tables is asked by N, which the reference
//! does in full.
//! A job that is checked fully is asked again with each candidate taken out and put in again, with
//! its rows by R alone, by B alone, and at other prices: there the pages stay, and the cheapest is
//! checked anew. Where candidates come and go between its queries, those that follow each other are
//! checked by themselves.

mod answers;
mod heads;
mod prices;
mod products;
mod ranges;

use crate::engine;
use crate::exact::Search;
use crate::format::{self, number};
use crate::generate::page;
use crate::implicants;
use crate::ranged;
use crate::reference::{self, Block, Candidate, Outcome, Prices, Range, Table, Term, LONGEST};
use crate::threads;
use answers::{check_cheapest, check_page, check_products};
use heads::{by_blocks, by_rows, turned};
use prices::{at_prices, Cheapest, PRICES};
use products::{multiplied, Multiplied};
use ranges::check_ranged_page;
use std::fs;
use std::path::{Path, PathBuf};

/// From the repository's root, where the run script starts this.
const FOLDER: &str = "tests/jobs";
/// What the count of a page is lowered to where a whole page is too much for the search.
const FEW: u8 = 4;

/// How far an answer was checked. The lesser of two counts for a job.
#[derive(Clone, Copy, PartialEq, Eq, PartialOrd, Ord)]
enum Depth {
    Part,
    FewSets,
    Full,
}

/// How many jobs were checked how far.
#[derive(Default)]
pub struct Tally {
    pub full: usize,
    pub few_sets: usize,
    pub part: Vec<String>,
    pub at_prices: Cheapest,
    pub multiplied: Multiplied,
}

impl Tally {
    pub fn jobs(&self) -> usize {
        self.full + self.few_sets + self.part.len()
    }
}

#[derive(PartialEq, Eq)]
struct Query {
    command: Vec<u8>,
    answer: Vec<u8>,
}

/// What stands before queries, and what the paper makes of it.
struct Problem {
    head: Vec<u8>,
    /// The W of the head, if it has one.
    pricing: Vec<u8>,
    prices: Prices,
    table: Table,
    /// The commands of the head that set the candidates.
    setting: Vec<u8>,
    candidates: Vec<Candidate>,
    /// What each weight may be, and whether a G stands in the head.
    ranges: Vec<Range>,
    ranged: bool,
    sums: Vec<u64>,
    costs: Vec<u64>,
}

/// Checks every job of the folder, several at a time; an answer that is wrong ends in its words.
pub fn run() -> Result<Tally, String> {
    tally(threads::each(&paths()?, |path| one(path)))
}

/// Every job of the folder without its L, C, N and V commands, which take time and leave table,
/// candidates and ranges as they are.
pub fn without_queries() -> Result<Vec<Vec<u8>>, String> {
    paths()?.iter().map(|path| quiet(path)).collect()
}

fn quiet(path: &Path) -> Result<Vec<u8>, String> {
    let wrong = |what: &str| format!("{}: {what}", path.display());
    let job = fs::read(path).map_err(|error| wrong(&error.to_string()))?;
    let commands = format::cut(&job).ok_or_else(|| wrong("it is not a list of whole commands"))?;
    let kept = commands
        .iter()
        .filter(|command| !format::QUERIES.contains(&command[0]));
    Ok(kept.copied().collect::<Vec<_>>().concat())
}

fn tally(seen: Vec<(String, Result<Checked, String>)>) -> Result<Tally, String> {
    let mut tally = Tally::default();
    for (name, checked) in seen {
        let checked = checked.map_err(|wrong| format!("stored job {name}: {wrong}"))?;
        tally.at_prices.full += checked.at_prices.full;
        tally.at_prices.part += checked.at_prices.part;
        tally.multiplied.answered += checked.multiplied.answered;
        tally.multiplied.refused += checked.multiplied.refused;
        match checked.depth {
            Depth::Full => tally.full += 1,
            Depth::FewSets => tally.few_sets += 1,
            Depth::Part => tally.part.push(name),
        }
    }
    if tally.at_prices.full == 0 {
        return Err("no cheapest of a stored job was checked at other prices".into());
    }
    if tally.multiplied.answered == 0 || tally.multiplied.refused == 0 {
        return Err("N was never answered over a stored table, or never refused".into());
    }
    Ok(tally)
}

fn one(path: &Path) -> (String, Result<Checked, String>) {
    let name = path.file_stem().unwrap_or_default().to_string_lossy();
    let job = fs::read(path).map_err(|error| error.to_string());
    (name.into_owned(), job.and_then(|job| check(&job)))
}

fn paths() -> Result<Vec<PathBuf>, String> {
    let entries = fs::read_dir(FOLDER).map_err(|error| format!("{FOLDER}: {error}"))?;
    let is_job = |path: &PathBuf| path.extension().is_some_and(|end| end == "job");
    let mut paths: Vec<PathBuf> = entries
        .filter_map(|entry| entry.ok().map(|entry| entry.path()))
        .filter(is_job)
        .collect();
    paths.sort();
    if paths.is_empty() {
        return Err(format!("no *.job in {FOLDER}"));
    }
    Ok(paths)
}

/// Queries one behind the other, and the commands before them that are no queries.
struct Asked<'a> {
    head: Vec<&'a [u8]>,
    queries: Vec<&'a [u8]>,
}

/// How far a job was checked.
struct Checked {
    depth: Depth,
    at_prices: Cheapest,
    multiplied: Multiplied,
}

fn check(job: &[u8]) -> Result<Checked, String> {
    let commands = format::cut(job).ok_or("it is not a list of whole commands")?;
    let Some(([b'E'], before)) = commands.split_last() else {
        return Err("it does not end with E".into());
    };
    let mut checked = Checked {
        depth: Depth::Full,
        at_prices: Cheapest::default(),
        multiplied: Multiplied::default(),
    };
    let mut answers = Vec::new();
    for asked in asked_in(before) {
        let problem = problem(&asked.head)?;
        let answered = ask(&problem.head, &asked.queries)?;
        check_asked(&problem, &asked.queries, &answered, &mut checked)?;
        multiplied(&problem, &mut checked.multiplied)?;
        answers.extend(answered.into_iter().flat_map(|query| query.answer));
    }
    answers.push(0x65);
    let written = engine::answers(job)?;
    if !written.ends_with(&answers) {
        return Err("queries answer otherwise than without those before them".into());
    }
    let outcome = Outcome::accepted(job, written);
    implicants::check(job, &outcome)?;
    ranged::check(job, &outcome)?;
    Ok(checked)
}

fn asked_in<'a>(commands: &[&'a [u8]]) -> Vec<Asked<'a>> {
    let mut list: Vec<Asked> = Vec::new();
    let mut head = Vec::new();
    let mut goes_on = false;
    for &command in commands {
        let is_query = format::QUERIES.contains(&command[0]);
        match list.last_mut() {
            Some(asked) if is_query && goes_on => asked.queries.push(command),
            _ if is_query => list.push(Asked {
                head: head.clone(),
                queries: vec![command],
            }),
            _ => head.push(command),
        }
        goes_on = is_query;
    }
    list
}

fn check_asked(
    problem: &Problem,
    asked: &[&[u8]],
    answered: &[Query],
    checked: &mut Checked,
) -> Result<(), String> {
    let mut depth = Depth::Full;
    let mut search = Search::new(&problem.sums, &problem.costs);
    for query in answered {
        depth = depth.min(check_query(problem, &mut search, query)?);
    }
    checked.depth = checked.depth.min(depth);
    if depth < Depth::Full {
        return Ok(());
    }
    if ask(&turned(problem), asked)? != answered {
        return Err("candidates that go and come again change the answers".into());
    }
    for head in [by_rows(problem), by_blocks(problem)] {
        if ask(&head, asked)? != answered {
            return Err("rows by R alone or by B alone change the answers".into());
        }
    }
    for prices in PRICES {
        at_prices(problem, prices, asked, answered, &mut checked.at_prices)
            .map_err(|wrong| format!("at prices {prices:?}: {wrong}"))?;
    }
    Ok(())
}

/// Prices, table, standing candidates and ranges by the paper.
fn problem(head: &[&[u8]]) -> Result<Problem, String> {
    let Some([b'I', n, m]) = head.first() else {
        return Err("it does not begin with I".into());
    };
    let mut table = Table::new(usize::from(*n), usize::from(*m));
    let mut candidates = Vec::new();
    // What G has set for each.
    let mut set: Vec<Option<Range>> = Vec::new();
    let mut prices = Prices::USUAL;
    for command in &head[1..] {
        match **command {
            [b'W', ref ops @ ..] => prices = Prices::of(ops),
            [b'R' | b'B', first, ref rows @ ..] => set_rows(&mut table, first, rows)?,
            [b'T' | b'A', care, value, outputs] => candidates.push(Candidate::Term(Term {
                care,
                value,
                outputs,
            })),
            [b'F', ref ops @ ..] => candidates.push(Candidate::Block(Block::of(ops))),
            [b'P'] => candidates = reference::of_terms(&table.primes()),
            [b'D', k] if usize::from(k) < candidates.len() => {
                candidates.remove(usize::from(k));
                set.remove(usize::from(k));
            }
            [b'G', k, ref ends @ ..] if usize::from(k) < candidates.len() => {
                set[usize::from(k)] = Some(Range::of(ends));
            }
            _ => return Err("a command before the queries has no meaning here".into()),
        }
        // Nothing else stands before the primes, and others come at the end.
        set.resize(candidates.len(), None);
    }
    let own = |c: &Candidate| Range::at(prices.cost_of(c));
    let both = candidates.iter().zip(&set);
    let of_head = |keep: &dyn Fn(u8) -> bool| {
        let kept = head.iter().filter(|command| keep(command[0]));
        kept.copied().collect::<Vec<_>>().concat()
    };
    Ok(Problem {
        head: head.concat(),
        pricing: of_head(&|byte| byte == b'W'),
        setting: of_head(&|byte| !b"IWRB".contains(&byte)),
        sums: reference::sums(&table, &candidates),
        costs: candidates.iter().map(|c| prices.cost_of(c)).collect(),
        ranges: both.map(|(c, set)| set.unwrap_or(own(c))).collect(),
        ranged: head.iter().any(|command| command[0] == b'G'),
        candidates,
        prices,
        table,
    })
}

/// The rows of an R or B, which must be vertices of the table.
fn set_rows(table: &mut Table, first: u8, rows: &[u8]) -> Result<(), String> {
    for (i, pair) in rows.chunks(2).enumerate() {
        let v = usize::from(first) + i;
        if v >= table.vertices() {
            return Err(format!("it has a row for {v}"));
        }
        table.on[v] = pair[0];
        table.dc[v] = pair[1];
    }
    Ok(())
}

/// Runs the queries in one job and cuts the answers apart. The answers before the queries are
/// the reference's, and the bytes behind the answers are as they were.
fn ask(head: &[u8], queries: &[&[u8]]) -> Result<Vec<Query>, String> {
    let job = [head, &queries.concat(), b"E"].concat();
    let written = engine::answers(&job)?;
    let head = [head, b"E"].concat();
    let expected = reference::run(&head, &[0; LONGEST]).ok_or("no reference")?;
    let before = &expected.buffer[..expected.written - 1];
    let mut rest = written.strip_prefix(before).ok_or("P differs")?;
    let mut list = Vec::new();
    for command in queries {
        let len = match (command[0], rest) {
            (b'L', [0x6c, k, ..]) | (b'V', [0x76, k, ..]) => 3 + 8 * usize::from(*k),
            (b'C', [0x63, ..]) => 11,
            (b'N', [0x6e, low, high, ..]) => 3 + 8 * number(&[*low, *high]) as usize,
            _ => return Err("an answer begins with another byte".into()),
        };
        let answer = rest.get(..len).ok_or("an answer is too short")?;
        list.push(Query {
            command: command.to_vec(),
            answer: answer.to_vec(),
        });
        rest = &rest[len..];
    }
    if rest != [0x65] {
        return Err("E's answer is not the last".into());
    }
    Ok(list)
}

fn check_query(problem: &Problem, search: &mut Search, query: &Query) -> Result<Depth, String> {
    match query.command[0] {
        b'C' => return check_cheapest(problem, search, &query.answer),
        b'N' => return check_products(problem, &query.answer),
        b'V' => return check_ranged_page(problem, search, query),
        _ => {}
    }
    let start = number(&query.command[1..9]);
    if check_page(problem, search, query)? == Depth::Full {
        return Ok(Depth::Full);
    }
    let fewer = page(start, FEW.min(query.command[9]));
    let few = ask(&problem.head, &[&fewer])?.remove(0);
    if !query.answer[3..].starts_with(&few.answer[3..]) {
        return Err("a page with a lower count has other sets".into());
    }
    Ok(check_page(problem, search, &few)?.min(Depth::FewSets))
}
