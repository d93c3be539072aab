//! Records that jobs leave, written out by hand from the papers: the weights are K1's, and what
//! comes and goes is K2's.

mod dumps;
mod refused;

use super::{bytes, example_rows, terms, Checks, EXAMPLE, TERMS};
use crate::generate::{block, come, draft, go, Pairs};
use crate::reference::{self, LONGEST};

/// The rows of the paper's example, which has two inputs and two outputs.
const EXAMPLE_ROWS: &str = "row 0 on 00 dc 01
row 1 on 01 dc 02
row 2 on 03 dc 00
row 3 on 02 dc 00
";

/// Its terms: 2 and 5 have two literals, the others have one.
const EXAMPLE_TERMS: &str = "candidate 0 care 01 value 00 outputs 01 weight 1 low 1 high 1
candidate 1 care 03 value 01 outputs 03 weight 3 low 3 high 3
candidate 2 care 01 value 01 outputs 02 weight 1 low 1 high 1
candidate 3 care 02 value 02 outputs 02 weight 1 low 1 high 1
candidate 4 care 03 value 02 outputs 03 weight 3 low 3 high 3
candidate 5 care 02 value 00 outputs 01 weight 1 low 1 high 1
";

/// Three inputs and four outputs. Output 0 is off nowhere, 1 where input 0 is 0, 2 where input 0
/// or 1 is 0, and 3 everywhere but at vertex 7.
const STAIRS: Pairs = [
    [1, 0],
    [3, 0],
    [0, 1],
    [1, 6],
    [1, 0],
    [2, 1],
    [1, 0],
    [8, 7],
];

const STAIRS_ROWS: &str = "inputs 3 outputs 4
prices 1 1 0
row 0 on 01 dc 00
row 1 on 03 dc 00
row 2 on 00 dc 01
row 3 on 01 dc 06
row 4 on 01 dc 00
row 5 on 02 dc 01
row 6 on 01 dc 00
row 7 on 08 dc 07
";

pub fn run(checks: &mut Checks) {
    sizes_and_rows(checks);
    terms_of_the_example(checks);
    ends(checks);
    changes(checks);
    primes(checks);
    refused::run(checks);
    dumps::run(checks);
}

fn leaves(checks: &mut Checks, name: &str, job: &[u8], parts: &[&str]) {
    let (_, text) = reference::record(job).expect("small enough");
    checks.check(&format!("record, {name}"), text == parts.concat());
}

fn sizes_and_rows(checks: &mut Checks) {
    let mut leaves = |name, job: &str, text| leaves(checks, name, &bytes(job), &[text]);
    leaves(
        "no bytes",
        "",
        "number 2 offset 0 written 0\nplace 0\ninputs 0 outputs 0\nprices 1 1 0\n",
    );
    leaves(
        "I",
        "49 02 03",
        "number 2 offset 3 written 0\nplace 1\ninputs 2 outputs 3\nprices 1 1 0\n",
    );
    leaves(
        "I and E",
        "49 08 01 45",
        "number 0 offset 4 written 1\nplace 1\ninputs 8 outputs 1\nprices 1 1 0\n",
    );
    leaves(
        "I of nine inputs",
        "49 09 01",
        "number 6 offset 0 written 0\nplace 0\ninputs 0 outputs 0\nprices 1 1 0\n",
    );
    leaves(
        "I twice",
        "49 02 03 49 01 01 45",
        "number 4 offset 3 written 0\nplace 1\ninputs 2 outputs 3\nprices 1 1 0\n",
    );
    leaves(
        "rows that fall, one of them empty",
        "49 08 08 52 ff 80 7f 52 0a 00 00 52 09 01 02",
        "number 2 offset 15 written 0\nplace 3\ninputs 8 outputs 8\nprices 1 1 0\n\
         row 9 on 01 dc 02\nrow 10 on 00 dc 00\nrow 255 on 80 dc 7f\n",
    );
}

fn terms_of_the_example(checks: &mut Checks) {
    let whole = "number 0 offset 55 written 63\nplace 5\ninputs 2 outputs 2\nprices 1 1 0\n";
    let parts = [whole, EXAMPLE_ROWS, EXAMPLE_TERMS];
    leaves(checks, "example", &bytes(EXAMPLE), &parts);
    let by_changes = bytes(&EXAMPLE.replace("54", "41"));
    leaves(checks, "example by A", &by_changes, &parts);
    // Its terms begin at 19 and its L at 43.
    let cut = "number 2 offset 43 written 0\nplace 4\ninputs 2 outputs 2\nprices 1 1 0\n";
    let parts = [cut, EXAMPLE_ROWS, EXAMPLE_TERMS];
    leaves(
        checks,
        "example to its terms",
        &bytes(EXAMPLE)[..43],
        &parts,
    );
}

/// Jobs that end early, and jobs that are as long as they may be and longer.
fn ends(checks: &mut Checks) {
    let example = bytes(EXAMPLE);
    let mut leaves = |name, job: &[u8], parts: &[&str]| leaves(checks, name, job, parts);
    let sizes = "inputs 2 outputs 2\nprices 1 1 0\n";
    let first_row = "row 0 on 00 dc 01\n";
    let first_term = "candidate 0 care 01 value 00 outputs 01 weight 1 low 1 high 1\n";
    let head = "number 5 offset 3 written 0\nplace 1\n";
    leaves("within a row", &example[..6], &[head, sizes]);
    let head = "number 2 offset 7 written 0\nplace 3\n";
    leaves("behind a row", &example[..7], &[head, sizes, first_row]);
    let head = "number 5 offset 19 written 0\nplace 3\n";
    leaves(
        "within a term",
        &example[..22],
        &[head, sizes, EXAMPLE_ROWS],
    );
    let head = "number 2 offset 23 written 0\nplace 4\n";
    let parts = [head, sizes, EXAMPLE_ROWS, first_term];
    leaves("behind a term", &example[..23], &parts);
    let head = "number 13 offset 54 written 62\nplace 5\n";
    let behind = [&example[..], b"E"].concat();
    let parts = [head, sizes, EXAMPLE_ROWS, EXAMPLE_TERMS];
    leaves("bytes behind E", &behind, &parts);

    // 2,978 answers of 11 bytes leave 10 bytes free.
    let mut long = [bytes("49 01 01"), vec![b'C'; LONGEST - 3]].concat();
    let head = "number 14 offset 2981 written 32758\nplace 5\n";
    leaves(
        "the longest",
        &long,
        &[head, "inputs 1 outputs 1\nprices 1 1 0\n"],
    );
    long.push(b'E');
    let none = "number 1 offset 0 written 0\nplace 0\ninputs 0 outputs 0\nprices 1 1 0\n";
    leaves("too long", &long, &[none]);
}

/// A seventh term comes and the second goes: those above move down, each with its weight.
fn changes(checks: &mut Checks) {
    let sizes = "inputs 2 outputs 2\nprices 1 1 0\n";
    let changed = [come(3, 3, 2), go(1)];
    let job = [example_rows(), terms(&TERMS), changed.to_vec()];
    let job = draft(2, 2, job).job();
    let head = "number 2 offset 47 written 0\nplace 4\n";
    let seventh = "candidate 6 care 03 value 03 outputs 02 weight 3 low 3 high 3\n";
    let parts = [head, sizes, EXAMPLE_ROWS, EXAMPLE_TERMS, seventh];
    leaves(checks, "behind A", &job[..47], &parts);
    let head = "number 2 offset 49 written 0\nplace 4\n";
    let moved = "candidate 0 care 01 value 00 outputs 01 weight 1 low 1 high 1
candidate 1 care 01 value 01 outputs 02 weight 1 low 1 high 1
candidate 2 care 02 value 02 outputs 02 weight 1 low 1 high 1
candidate 3 care 03 value 02 outputs 03 weight 3 low 3 high 3
candidate 4 care 02 value 00 outputs 01 weight 1 low 1 high 1
candidate 5 care 03 value 03 outputs 02 weight 3 low 3 high 3
";
    let parts = [head, sizes, EXAMPLE_ROWS, moved];
    leaves(checks, "behind A and D", &job[..49], &parts);
    let head = "number 0 offset 50 written 1\nplace 4\n";
    let parts = [head, sizes, EXAMPLE_ROWS, moved];
    leaves(checks, "behind A, D and E", &job, &parts);

    // The term has gone, its place has not; behind C an A leaves the place of C.
    let job = bytes("49 01 01 52 00 00 01 54 01 00 01 44 00 43 41 01 00 01");
    let text = "inputs 1 outputs 1\nprices 1 1 0\nrow 0 on 00 dc 01\n";
    let head = "number 2 offset 13 written 0\nplace 4\n";
    leaves(checks, "behind T and D", &job[..13], &[head, text]);
    let head = "number 2 offset 18 written 11\nplace 5\n";
    let come = "candidate 0 care 01 value 00 outputs 01 weight 1 low 1 high 1\n";
    leaves(checks, "behind C and A", &job, &[head, text, come]);
}

/// The largest cube that may drive output 0 has no literal; output 1 needs one, 2 needs two and 3
/// needs three. Each drives the outputs below, too.
fn primes(checks: &mut Checks) {
    let changed = vec![go(1), come(6, 4, 1), go(0)];
    let job = [vec![block(0, STAIRS), vec![b'P']], changed];
    let job = draft(3, 4, job).job();
    // I and B have 21 bytes; P's answer has 2 and 3 for each prime.
    let head = "number 2 offset 22 written 14\nplace 5\n";
    let behind_primes = "candidate 0 care 00 value 00 outputs 01 weight 1 low 1 high 1
candidate 1 care 01 value 01 outputs 03 weight 1 low 1 high 1
candidate 2 care 03 value 03 outputs 07 weight 3 low 3 high 3
candidate 3 care 07 value 07 outputs 0f weight 4 low 4 high 4
";
    let parts = [head, STAIRS_ROWS, behind_primes];
    leaves(checks, "behind P", &job[..22], &parts);
    let head = "number 2 offset 28 written 14\nplace 5\n";
    let behind_changes = "candidate 0 care 00 value 00 outputs 01 weight 1 low 1 high 1
candidate 1 care 03 value 03 outputs 07 weight 3 low 3 high 3
candidate 2 care 07 value 07 outputs 0f weight 4 low 4 high 4
candidate 3 care 06 value 04 outputs 01 weight 3 low 3 high 3
";
    let parts = [head, STAIRS_ROWS, behind_changes];
    leaves(checks, "behind P, D and A", &job[..28], &parts);
    let head = "number 0 offset 31 written 15\nplace 5\n";
    let first_gone = "candidate 0 care 03 value 03 outputs 07 weight 3 low 3 high 3
candidate 1 care 07 value 07 outputs 0f weight 4 low 4 high 4
candidate 2 care 06 value 04 outputs 01 weight 3 low 3 high 3
";
    let parts = [head, STAIRS_ROWS, first_gone];
    leaves(checks, "behind P, D, A and D", &job, &parts);
}
