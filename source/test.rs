//! The claims that are counted: first of the sources, then of this test itself.

use crate::check::{Claim, Report};
use crate::mir::{follow, Followed, Mir};
use crate::mir_planted;
use crate::planted;
use crate::plants::PLANTS;
use crate::program::{Finding, Program, Sources};
use crate::walk::{functions, walk, Walked, LONGEST};
use std::collections::BTreeMap;
use std::process::ExitCode;

/// The crate from whose public functions the walk starts.
const WRITER: &str = "writer";

/// Functions that the writer calls today, however it does: a walk that misses one has lost its way.
const KNOWN: [&str; 10] = [
    "writer::write_transmitter",
    "writer::write_signal",
    "pdu::Network::check_fields",
    "pdu::rules::signal_size",
    "wire::put",
    "wire::put_four",
    "wire::U16BigEndian::write",
    "wire::U64BigEndian::WIDTH",
    "wire::copy",
    "wire::zero",
];

/// Prints and counts all claims, with what the compiler made of the functions; the status to exit with.
pub fn run(sources: &Sources, mir: &Mir) -> ExitCode {
    let mut report = Report::default();
    let read = Program::read(sources);
    report.count(&all_read(sources, &read));
    let findings = read.map_or(1, |program| test_writer(&program, mir, &mut report));
    if findings == 0 {
        test_plants(sources, &mut report);
    } else {
        println!("nothing is planted in sources that have findings themselves");
    }
    report.finish()
}

fn all_read(sources: &Sources, read: &Result<Program, Finding>) -> Claim {
    let mut claim = Claim::new(format!("{} source files are read", sources.len()));
    match read {
        Err(finding) => claim.sample(false, || finding.to_string()),
        Ok(program) => {
            for path in sources.keys() {
                let is_read = program.files.iter().any(|file| file.path == *path);
                claim.sample(is_read, || format!("no module has the file {path}"));
            }
        }
    }
    claim
}

/// How many findings the walk from the writer has.
fn test_writer(program: &Program, mir: &Mir, report: &mut Report) -> usize {
    let walked = walk(program, WRITER);
    let names = walked.names();
    report.count(&right_way(program, &names));
    let public = functions(program, WRITER, true);
    let followed = follow(mir, public.iter().map(|place| program.name(place)));
    report.count(&none_missed(program, &names, &followed));
    report.count(&short_as_compiled(&followed));
    let from = walked.roots;
    let resolved = format!(
        "{} calls from {from} public functions, each resolved",
        walked.calls
    );
    report.count(&no_finding(&walked, resolved, false));
    let short = format!("no array is longer than {LONGEST} bytes");
    report.count(&no_finding(&walked, short, true));
    walked.findings.len()
}

/// The known functions are reached, and all of the writer.
fn right_way(program: &Program, names: &[String]) -> Claim {
    let what = format!("{} functions are reached: {}", names.len(), by_crate(names));
    let mut claim = Claim::new(what);
    let writer = functions(program, WRITER, false);
    let known = KNOWN.iter().map(|name| name.to_string());
    for name in known.chain(writer.iter().map(|place| program.name(place))) {
        claim.sample(names.contains(&name), || format!("`{name}` is not"));
    }
    claim
}

/// Each function of these crates that the compiler calls is reached: it resolves calls in its own
/// way. Those of the library that it calls have no source here; the next claim is of them too.
fn none_missed(program: &Program, names: &[String], followed: &Followed) -> Claim {
    let is_own = |name: &&String| {
        let of = name.split("::").next();
        of.is_some_and(|of| program.has_crate(of))
    };
    let (own, library): (Vec<_>, Vec<_>) = followed.functions.iter().partition(is_own);
    let what = format!(
        "{} functions that the compiler calls are among them, and {} more are the library's",
        own.len(),
        library.len()
    );
    let mut claim = Claim::new(what);
    for name in own {
        claim.sample(is_among(program, names, name), || {
            format!("`{name}` is not")
        });
    }
    claim
}

/// Whether a function is one of these, a closure of one, or what the compiler itself writes: the
/// functions of derived traits, and the end of a value's life that does nothing.
fn is_among(program: &Program, names: &[String], name: &str) -> bool {
    let is_reached = |name: &str| names.iter().any(|reached| reached == name);
    is_reached(name)
        || closure_of(name).any(|of| is_reached(&of))
        || name.rsplit_once("::").is_some_and(|(of, function)| {
            of.ends_with("::Destruct++none") && function == "drop" || is_derived(program, of)
        })
}

/// The functions that a closure may stand in: the compiler has `fn` and the function before the
/// closure's own name.
fn closure_of(name: &str) -> impl Iterator<Item = String> + '_ {
    let words = name.split("::").collect::<Vec<&str>>();
    let place = words.iter().position(|word| *word == "fn");
    let ends = place.map_or(0..0, |place| place + 2..words.len());
    ends.map(move |end| {
        let place = place.unwrap_or_default();
        [&words[..place], &words[place + 1..end]]
            .concat()
            .join("::")
    })
}

/// Whether this is a derived trait of a type, as the compiler names the two.
fn is_derived(program: &Program, of: &str) -> bool {
    let mut types = program.modules.iter().flat_map(|(module, inside)| {
        let module = module.join("::");
        inside
            .items
            .iter()
            .map(move |named| (module.clone(), named))
    });
    types.any(|(module, named)| {
        let mut derived = named.derived.iter();
        derived.any(|by| of == format!("{module}::{}{by}", named.name))
    })
}

/// As the compiler has them, none of these names a long array, nor calls what it does not name.
fn short_as_compiled(followed: &Followed) -> Claim {
    let what = format!("as compiled, they have no array longer than {LONGEST} bytes");
    let mut claim = Claim::new(what);
    for says in &followed.says {
        claim.sample(false, || says.clone());
    }
    claim
}

/// The walk found nothing of a sort; all that it found is printed before.
fn no_finding(walked: &Walked, what: String, is_array: bool) -> Claim {
    let mut claim = Claim::new(what);
    let findings = walked.findings.iter();
    for finding in findings.filter(|finding| finding.is_array == is_array) {
        println!("{finding}");
        claim.sample(false, || "told above".to_string());
    }
    claim
}

/// How many of these functions each crate has.
fn by_crate(names: &[String]) -> String {
    let mut counts = BTreeMap::new();
    for name in names.iter().filter_map(|name| name.split("::").next()) {
        *counts.entry(name).or_insert(0) += 1;
    }
    let told = counts.iter().map(|(name, count)| format!("{name} {count}"));
    told.collect::<Vec<String>>().join(", ")
}

fn test_plants(sources: &Sources, report: &mut Report) {
    for plant in PLANTS {
        let mut claim = Claim::new(format!("planted: {}", plant.what));
        let outcome = planted::holds(sources, WRITER, plant);
        claim.sample(outcome.is_ok(), || outcome.err().unwrap_or_default());
        report.count_own(&claim);
    }
    for plant in mir_planted::PLANTS {
        let mut claim = Claim::new(format!("planted: {}", plant.what));
        let outcome = mir_planted::holds(plant);
        claim.sample(outcome.is_ok(), || outcome.err().unwrap_or_default());
        report.count_own(&claim);
    }
}
