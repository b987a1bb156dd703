//! The gate against the reference on random texts and files, and against itself on pairs of documents alike.

// A difference is made once, at the end of a run.
#![allow(clippy::result_large_err)]

mod cells;
mod choices;
mod compare;
mod damage;
mod documents;
mod files;
mod gate;
mod imports;
mod joined;
mod joins;
mod model;
mod nests;
mod pairs;
mod queries;
mod random;
mod recase;
#[cfg(feature = "stub")]
mod stub;
mod texts;
mod whys;

use choices::ChoiceTally;
use compare::Buffers;
use gate::{Second, Subject};
use imports::{ImportTally, Imports};
use joined::JoinTally;
use pairs::PairTally;
use random::Random;
use std::process::ExitCode;
use std::time::Instant;
use texts::{Run, Tally, MISPLACED, SCHEMES, VERBS};

/// How many documents to join in: none where a join is no query (02, Q-3; feature `join`).
const JOINS: u64 = if cfg!(feature = "join") { 10_000 } else { 0 };

struct Options {
    texts: u64,
    pairs: u64,
    files: u64,
    choices: u64,
    joins: u64,
    seed: u64,
    mutant: Option<u32>,
    /// How many cases for `tests/free` to print, instead of comparing.
    cells: Option<u64>,
}

fn options() -> Result<Options, String> {
    let mut options = Options { texts: 20_000, pairs: 5_000, files: 40_000, choices: 2_000, joins: JOINS, seed: 1, mutant: None, cells: None };
    let mut arguments = std::env::args().skip(1);
    while let Some(argument) = arguments.next() {
        let given = arguments.next().ok_or(format!("{argument}: a number is missing"))?;
        let number: u64 = given.parse().map_err(|_| format!("{argument} {given}: not a number"))?;
        match argument.as_str() {
            "--texts" => options.texts = number,
            "--pairs" => options.pairs = number,
            "--files" => options.files = number,
            "--choices" => options.choices = number,
            "--joins" => options.joins = number,
            "--seed" => options.seed = number,
            "--cells" => options.cells = Some(number),
            "--mutant" if (1..=mutant::BLUNDERS.len() as u64).contains(&number) => options.mutant = Some(number as u32),
            _ => return Err(format!("{argument} {given}: not known")),
        }
    }
    Ok(options)
}

fn main() -> ExitCode {
    let options = match options() {
        Ok(options) => options,
        Err(what) => {
            eprintln!("{what}\ncomparison [--texts N] [--pairs N] [--files N] [--choices N] [--joins N] [--seed S] [--mutant 1..{}] [--cells N]", mutant::BLUNDERS.len());
            return ExitCode::from(2);
        }
    };
    match (options.cells, options.mutant) {
        (Some(cases), _) if cells::print(options.seed, cases) => ExitCode::SUCCESS,
        (Some(_), _) => ExitCode::FAILURE,
        (None, Some(blunder)) => catch(&options, blunder),
        (None, None) => compare_all(&options),
    }
}

/// Every text, pair and file; fails at the first difference, or where a refusal number was never seen.
fn compare_all(options: &Options) -> ExitCode {
    let start = Instant::now();
    let mut run = Run::new(Second::Reference);
    for place in 0..options.texts {
        if let Err(difference) = run.text(&mut Random::new(options.seed, place)) {
            print!("{difference}");
            println!("text {place} of seed {}", options.seed);
            return ExitCode::FAILURE;
        }
    }
    let texts_done = start.elapsed();
    let tally = run.tally;
    let mut buffers = Buffers::new();
    let mut pairs = PairTally::default();
    for place in 0..options.pairs {
        let mut random = Random::new(options.seed, place | 1 << 40);
        if let Err(difference) = pairs::run(&mut random, Subject::Gate, &mut buffers, &mut pairs) {
            print!("{difference}");
            println!("pair {place} of seed {}", options.seed);
            return ExitCode::FAILURE;
        }
    }
    let nests = match nests::all(Second::Reference, &mut buffers) {
        Ok(nests) => nests,
        Err(difference) => {
            print!("{difference}");
            return ExitCode::FAILURE;
        }
    };
    let mut choices = ChoiceTally::default();
    for place in 0..options.choices {
        let mut random = Random::new(options.seed, place | 1 << 42);
        if let Err(difference) = choices::run(&mut random, &mut choices) {
            print!("{difference}");
            println!("choice {place} of seed {}", options.seed);
            return ExitCode::FAILURE;
        }
    }
    let pairs_done = start.elapsed();
    let joins = match join_all(options, Second::Reference) {
        Ok(joins) => joins,
        Err(difference) => {
            print!("{difference}");
            return ExitCode::FAILURE;
        }
    };
    let joins_done = start.elapsed();
    let imports = match import_all(options, &mut buffers) {
        Ok(imports) => imports,
        Err(difference) => {
            println!("DIFFERENCE: {difference}");
            return ExitCode::FAILURE;
        }
    };
    summary(options, &tally, &pairs);
    println!("all nest labels:   {nests}");
    println!("choices of ranges: {choices}");
    if options.joins > 0 {
        println!("{joins}");
    }
    import_summary(&imports);
    let seconds = [texts_done, pairs_done - texts_done, joins_done - pairs_done, start.elapsed() - joins_done].map(|time| time.as_secs_f64());
    println!("seconds:           {:.1} texts, {:.1} pairs and choices, {:.1} joins, {:.1} files", seconds[0], seconds[1], seconds[2], seconds[3]);
    let unseen = if options.joins > 0 { joins.missing() } else { Vec::new() };
    if !unseen.is_empty() {
        println!("FAILED: of joins never seen: {}", unseen.join("; "));
        return ExitCode::FAILURE;
    }
    let unseen = if options.files > 0 { imports.missing() } else { Vec::new() };
    if !unseen.is_empty() {
        println!("FAILED: of importing never seen: {unseen:?}");
        return ExitCode::FAILURE;
    }
    let missing: Vec<usize> = (1..=18).chain([25, 27, 28, 31]).filter(|&number| tally.refusals[number] == 0).collect();
    if !missing.is_empty() {
        println!("FAILED: refusals never seen: {missing:?}");
        return ExitCode::FAILURE;
    }
    if options.pairs > 0 && pairs.told_apart * 3 <= pairs.unlike {
        println!("FAILED: pairs that aren't alike are hardly told apart");
        return ExitCode::FAILURE;
    }
    let recased = [tally.recased.accepted, tally.recased.answered, pairs.recased, pairs.case_alone, pairs.told_apart_case];
    if options.texts > 0 && options.pairs > 0 && recased.contains(&0) {
        println!("FAILED: too little was recased");
        return ExitCode::FAILURE;
    }
    if options.pairs > 0 && (pairs.undeclared == 0 || pairs.told_apart_public == 0) {
        println!("FAILED: too few pairs over tables without labels");
        return ExitCode::FAILURE;
    }
    if options.texts > 0 && options.pairs > 0 && [tally.dashes, pairs.blanked, pairs.told_apart_blank].contains(&0) {
        println!("FAILED: too few blanks");
        return ExitCode::FAILURE;
    }
    let of_ranges = [tally.sure, tally.possible, tally.ranges, pairs.ends, pairs.told_apart_ends, pairs.told_apart_turned];
    if options.texts > 0 && options.pairs > 0 && of_ranges.contains(&0) || options.choices > 0 && choices.lacks() {
        println!("FAILED: too few ranges");
        return ExitCode::FAILURE;
    }
    let answered_dates = tally.dates.iter().copied().min().unwrap_or(0);
    let of_dates = [answered_dates, tally.no_date_in_document, tally.no_date_in_query, pairs.dates, pairs.told_apart_dates];
    if options.texts > 0 && options.pairs > 0 && of_dates.contains(&0) {
        println!("FAILED: too few dates");
        return ExitCode::FAILURE;
    }
    if options.texts > 0 && tally.answers.as_flattened().contains(&0) {
        println!("FAILED: a verb was never answered of some scheme");
        return ExitCode::FAILURE;
    }
    let of_nest = [&tally.inherited[..], &tally.misplaced, &[tally.nest_dashes, pairs.nest_closed, pairs.nest_withheld, pairs.told_apart_nest]].concat();
    if options.texts > 0 && options.pairs > 0 && of_nest.contains(&0) || nests.lacks() {
        println!("FAILED: too little of nest tables");
        return ExitCode::FAILURE;
    }
    let never = tally.whys.missing();
    if options.texts > 0 && !never.is_empty() {
        println!("FAILED: of why lines never seen: {}", never.join("; "));
        return ExitCode::FAILURE;
    }
    if options.pairs > 0 && [pairs.whys.pairs_printed, pairs.whys.pairs_changed].contains(&0) {
        println!("FAILED: too few why lines to pairs");
        return ExitCode::FAILURE;
    }
    println!("no difference");
    ExitCode::SUCCESS
}

fn summary(options: &Options, tally: &Tally, pairs: &PairTally) {
    let histogram = |refusals: &[u64; 32]| -> String {
        (1..=31).filter(|&n| refusals[n] > 0).map(|n| format!(" {n}:{}", refusals[n])).collect()
    };
    println!("seed:              {}", options.seed);
    println!("texts:             {}, accepted {}, the longest {} bytes", tally.texts, tally.accepted, tally.longest);
    println!("queries:           {}, answered {}, asked with {} buffers", tally.queries, tally.answered, tally.asked);
    println!("refusals seen:    {}", histogram(&tally.refusals));
    println!("pairs alike:       {}, answered {}, refused{}", pairs.pairs, pairs.answered, histogram(&pairs.refusals));
    println!("pairs not alike:   {}, told apart {}", pairs.unlike, pairs.told_apart);
    let recased = &tally.recased;
    println!("recased:           {} texts, accepted {}; {} queries, answered {}; {} pairs alike", recased.texts, recased.accepted, recased.queries, recased.answered, pairs.recased);
    println!("in case alone:     {} pairs alike; {} not alike, told apart {}", pairs.case_alone, pairs.unlike_case, pairs.told_apart_case);
    println!("blanks:            {} answered, {} with a blanked value; {} pairs alike that differ in one; {} pairs not alike told apart", tally.blanks, tally.dashes, pairs.blanked, pairs.told_apart_blank);
    println!("ranges:            {} answers to sure, {} to possible, {} with a range; {} pairs alike that differ in one; {} pairs not alike told apart", tally.sure, tally.possible, tally.ranges, pairs.ends, pairs.told_apart_ends);
    println!("range or number:   {} values made the other, which are no pairs alike, told apart {}", pairs.turned, pairs.told_apart_turned);
    let [select, blank, sure, possible] = tally.dates;
    println!("dates:             {select} answers to select with one, {blank} to blank, {sure} to sure, {possible} to possible; refused in {} documents and {} askings; {} pairs alike that differ in one; {} pairs not alike told apart", tally.no_date_in_document, tally.no_date_in_query, pairs.dates, pairs.told_apart_dates);
    let by_verb = |answers: &[u64; 5]| VERBS.iter().zip(answers).map(|(verb, count)| format!("{verb} {count}")).collect::<Vec<String>>().join(", ");
    for (scheme, answers) in SCHEMES.iter().zip(&tally.answers) {
        println!("answers, {:<10}{}", format!("{scheme}:"), by_verb(answers));
    }
    let [neither, weak, strong, both] = tally.inherited;
    println!("nest tables:       {neither} answers with neither line, {weak} with a weak one, {strong} with a strong one, {both} with both, {} with a blanked value; {} pairs alike that differ in a closed cell, {} in a row withheld; {} pairs not alike told apart", tally.nest_dashes, pairs.nest_closed, pairs.nest_withheld, pairs.told_apart_nest);
    let misplaced: Vec<String> = MISPLACED.iter().zip(tally.misplaced).map(|(reason, count)| format!("{count} {reason}")).collect();
    println!("misplaced lines:   {}", misplaced.join(", "));
    println!("{}", tally.whys);
    println!("explained alike:   {}", pairs.whys.of_pairs());
    println!("without labels:    {} pairs alike that differ in an undeclared table; {} told apart in a public one", pairs.undeclared, pairs.told_apart_public);
}

/// Every document with joins, half as many pairs, and the most pairs that rows can make.
fn join_all(options: &Options, second: Second) -> Result<JoinTally, String> {
    let (mut run, mut tally) = (Run::new(second), JoinTally::default());
    for place in 0..options.joins {
        let random = &mut Random::new(options.seed, place | 1 << 43);
        joined::run(random, &mut run, &mut tally).map_err(|difference| format!("{difference}document {place} of seed {}, joined\n", options.seed))?;
    }
    for place in 0..options.joins / 2 {
        let random = &mut Random::new(options.seed, place | 1 << 44);
        let alike = joined::pair(random, Subject::Gate, &mut run.buffers, &mut tally.pairs);
        alike.map_err(|difference| format!("{difference}pair {place} of seed {}, joined\n", options.seed))?;
    }
    if options.joins > 0 {
        joined::largest(&mut run).map_err(|difference| difference.to_string())?;
    }
    Ok(tally)
}

/// Every file: random ones, all short ones, and one document in ten files to which a list's lines are added.
fn import_all(options: &Options, buffers: &mut Buffers) -> Result<ImportTally, String> {
    let mut imports = Imports::new(Second::Reference);
    for place in 0..options.files {
        let random = &mut Random::new(options.seed, place | 1 << 41);
        imports.random(random).map_err(|what| format!("{what}\nfile {place} of seed {}", options.seed))?;
        if place % 10 == 0 {
            let added = imports::desk(random, buffers, Second::Reference, &mut imports.tally);
            added.map_err(|difference| format!("{difference}with the lines of file {place} of seed {}", options.seed))?;
        }
    }
    if options.files > 0 {
        imports.all_small()?;
    }
    Ok(imports.tally)
}

fn import_summary(tally: &ImportTally) {
    let histogram = |refusals: &[u64; 22]| -> String { (1..=21).filter(|&n| refusals[n] > 0).map(|n| format!(" {n}:{}", refusals[n])).collect() };
    println!("files:             {} and all {} of up to 7 bytes, the longest {} bytes", tally.files, tally.small, tally.longest);
    println!("imported:          {} of {} calls, refused{}", tally.written, tally.calls, histogram(&tally.refusals));
    println!("with lines added:  {} documents, accepted {} with {} lines more, {} in another case, refused{}", tally.documents, tally.accepted, tally.rows, tally.recased, histogram(&tally.refused));
}

/// A mutant of importing: a difference has to be found on files.
fn catch_import(options: &Options, blunder: u32) -> ExitCode {
    let mut imports = Imports::new(Second::Mutant);
    let caught = (0..options.files).find_map(|place| Some((place + 1, imports.random(&mut Random::new(options.seed, place | 1 << 41)).err()?)));
    match caught {
        Some((files, difference)) => {
            println!("DIFFERENCE: {difference}");
            println!("mutant {blunder}: caught after {files} files");
            ExitCode::SUCCESS
        }
        None => {
            println!("mutant {blunder}: NOT caught in {} files", options.files);
            ExitCode::FAILURE
        }
    }
}

/// A mutant of joins: a difference has to be found on documents that are joined in.
fn catch_join(options: &Options, blunder: u32) -> ExitCode {
    let (mut run, mut tally) = (Run::new(Second::Mutant), JoinTally::default());
    let caught = (0..options.joins).find_map(|place| Some((place + 1, joined::run(&mut Random::new(options.seed, place | 1 << 43), &mut run, &mut tally).err()?)));
    let leaked = (0..options.joins / 2).find(|place| {
        let random = &mut Random::new(options.seed, place | 1 << 44);
        joined::pair(random, Subject::Mutant, &mut run.buffers, &mut tally.pairs).is_err()
    });
    match leaked {
        Some(place) => println!("mutant {blunder}: breaks the no-difference claim after {} pairs", place + 1),
        None => println!("mutant {blunder}: keeps the no-difference claim in {} pairs", options.joins / 2),
    }
    match caught {
        Some((documents, difference)) => {
            print!("{difference}");
            println!("mutant {blunder}: caught after {documents} documents with joins");
            ExitCode::SUCCESS
        }
        None => {
            println!("mutant {blunder}: NOT caught in {} documents with joins", options.joins);
            ExitCode::FAILURE
        }
    }
}

/// The gate against a mutant: a difference has to be found. Whether the mutant keeps the no-difference claim is told beside it.
fn catch(options: &Options, blunder: u32) -> ExitCode {
    mutant::switch(blunder);
    println!("mutant {blunder}: {}", mutant::BLUNDERS[blunder as usize - 1]);
    if mutant::IMPORTING.contains(&blunder) {
        return catch_import(options, blunder);
    }
    if mutant::JOINING.contains(&blunder) {
        return catch_join(options, blunder);
    }
    let mut run = Run::new(Second::Mutant);
    let caught = (0..options.texts).find_map(|place| {
        let difference = run.text(&mut Random::new(options.seed, place)).err()?;
        Some((place + 1, difference))
    });
    let mut buffers = Buffers::new();
    let mut pairs = PairTally::default();
    let leaked = (0..options.pairs).find(|place| {
        let mut random = Random::new(options.seed, place | 1 << 40);
        pairs::run(&mut random, Subject::Mutant, &mut buffers, &mut pairs).is_err_and(|difference| difference.what != pairs::COUNTED_OTHERWISE)
    });
    match leaked {
        Some(place) => println!("mutant {blunder}: breaks the no-difference claim after {} pairs", place + 1),
        None => println!("mutant {blunder}: keeps the no-difference claim in {} pairs", options.pairs),
    }
    match caught {
        Some((texts, difference)) => {
            print!("{difference}");
            println!("mutant {blunder}: caught after {texts} texts");
            ExitCode::SUCCESS
        }
        None => {
            println!("mutant {blunder}: NOT caught in {} texts", options.texts);
            ExitCode::FAILURE
        }
    }
}
