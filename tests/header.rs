//! Holds include/raddlebrush.h against the Rattle source: each exported call with the names, the number and the widths of its parameters,
//! the three counts each with its type, each constant, that each structure has a member for each number that its call writes, in the
//! numbers' order, that parts are handed on as twice as many numbers, and that a start clause is decided from the members of each name. Run
//! in the repository's root.

use std::collections::BTreeMap;
use std::fs;

/// A call: the C types of its parameters with their names, and of what it returns.
type Calls = BTreeMap<String, (Vec<String>, String)>;

/// The Rattle files of a crate, one after the other.
fn source(name: &str) -> String {
    let mut paths: Vec<_> = fs::read_dir(format!("crates/{name}/src")).expect("a crate's source").map(|f| f.unwrap().path()).collect();
    paths.sort();
    paths.iter().map(|p| fs::read_to_string(p).unwrap()).collect()
}

fn squeezed(text: &str) -> String {
    text.split_whitespace().collect::<Vec<_>>().join(" ")
}

/// The counts of the header, and what each is a structure of.
const COUNTS: [&str; 3] = ["rb_session_number", "rb_command_number", "rb_ticket"];
const COUNT: &str = "uint32_t";

/// What a part is, and the calls that hand parts on as numbers.
const PART: &str = "typedef struct { size_t place, length; } rb_part;";
const BY_PARTS: [&str; 2] = ["rb_read_report", "rb_write_report"];

// ---- the Rattle side

fn number_type(t: &str) -> &str {
    match t {
        "u8" => "uint8_t",
        "u32" => "uint32_t",
        "u64" => "uint64_t",
        "i64" => "int64_t",
        "usize" => "size_t",
        "bool" => "bool",
        other => panic!("a type that the header has no word for: {other}"),
    }
}

/// The header's type of a number: session numbers, command numbers and tickets are known by their names, and have a structure each.
fn parameter_type<'a>(call: &str, name: &str, t: &'a str) -> &'a str {
    let number = number_type(t);
    let count = match (call, name) {
        ("rb_write_record", "number") | (_, "command") => "rb_command_number",
        (_, "number") => "rb_session_number",
        (_, "ticket") => "rb_ticket",
        _ => return number,
    };
    assert_eq!(number, COUNT, "{call}: {name}");
    count
}

/// The header's type of what is returned: a number of 64 bits is a refusal, or none.
fn returned_type(t: &str) -> &str {
    if t == "u64" { "rb_result" } else { number_type(t) }
}

/// The C parameters of one of Rattle's: a slice is a pointer and a length.
fn parameters(call: &str, name: &str, t: &str) -> Vec<String> {
    let (constant, behind) = match t.strip_prefix("&mut ") {
        Some(rest) => ("", rest),
        None => match t.strip_prefix('&') {
            Some(rest) => ("const ", rest),
            None => return vec![format!("{} {name}", parameter_type(call, name, t))],
        },
    };
    match behind.strip_prefix('[').and_then(|b| b.strip_suffix(']')) {
        None => vec![format!("{constant}{} *{name}", parameter_type(call, name, behind))],
        Some(slice) => match slice.split_once("; ") {
            None => vec![format!("{constant}{} *{name}", number_type(slice)), "size_t".into()],
            Some((element, count)) => vec![format!("{constant}{} {name}[{count}]", number_type(element))],
        },
    }
}

fn rattle_calls(text: &str) -> Calls {
    let mut calls = Calls::new();
    for item in text.split("pub extern \"C\" fn ").skip(1) {
        let (name, rest) = item.split_once('(').unwrap();
        let (inner, rest) = rest.split_once(')').unwrap();
        let given = inner.split(',').map(squeezed).filter(|p| !p.is_empty());
        let taken = given.flat_map(|p| {
            let (parameter, t) = p.split_once(": ").unwrap();
            parameters(name, parameter, t)
        });
        let returned = rest.trim_start().strip_prefix("-> ").expect("every call returns a number").split_whitespace().next().unwrap();
        calls.insert(name.to_string(), (taken.collect(), returned_type(returned).to_string()));
    }
    calls
}

/// A name in capitals, with _ between its words.
fn capitals(name: &str) -> String {
    let mut out = String::new();
    for c in name.chars() {
        if c.is_uppercase() && !out.is_empty() {
            out.push('_');
        }
        out.push(c.to_ascii_uppercase());
    }
    out
}

/// The numbers of a source by their names: constants whose value is written out, and the cases of enums with a number each. A case is named
/// by its enum and itself, and a reason by itself.
fn rattle_constants(text: &str) -> BTreeMap<String, u64> {
    let mut numbers = BTreeMap::new();
    let mut named = "";
    for l in text.lines() {
        let line = l.trim();
        if let Some(name) = line.strip_prefix("pub enum ") {
            named = name.strip_suffix(" {").expect("an enum over several lines");
        } else if let Some((name, rest)) = line.strip_prefix("pub const ").and_then(|c| c.split_once(':')) {
            let value = rest.split_once("= ").and_then(|(_, v)| v.strip_suffix(';')?.parse().ok());
            numbers.extend(value.map(|v| (name.to_string(), v)));
        } else if let Some((case, value)) = line.strip_suffix(',').and_then(|c| c.split_once(" = ")) {
            let one_name = case.chars().all(char::is_alphanumeric) && case.starts_with(char::is_uppercase);
            let name = if named == "Reason" { capitals(case) } else { format!("{}_{}", capitals(named), capitals(case)) };
            numbers.extend(value.parse().ok().filter(|_| one_name).map(|v| (name, v)));
        }
    }
    numbers
}

// ---- the header

fn without_comments(text: &str) -> String {
    let mut out = String::new();
    let mut rest = text;
    while let Some((before, after)) = rest.split_once("/*") {
        out.push_str(before);
        rest = after.split_once("*/").unwrap().1;
    }
    out + rest
}

/// The header without its inline functions, and these by their names.
fn without_inlines(text: &str) -> (String, BTreeMap<String, String>) {
    let mut out = String::new();
    let mut inlines = BTreeMap::new();
    let mut rest = text;
    while let Some((before, after)) = rest.split_once("static inline ") {
        out.push_str(before);
        let line = after.split_once('\n').unwrap().0;
        let whole = if line.ends_with('}') { line } else { after.split_once("\n}").unwrap().0 };
        let name = whole.split_once('(').unwrap().0.rsplit([' ', '*']).next().unwrap();
        inlines.insert(name.to_string(), whole.to_string());
        rest = &after[whole.len()..];
        rest = rest.strip_prefix("\n}").unwrap_or(rest);
    }
    (out + rest, inlines)
}

fn header_constants(text: &str) -> BTreeMap<String, u64> {
    text.lines()
        .filter_map(|l| {
            let (name, value) = l.strip_prefix("#define RB_")?.split_once(' ')?;
            Some((name.to_string(), value.trim().trim_end_matches('u').parse().expect("a number")))
        })
        .collect()
}

/// The name in the source of a constant of the header: a refusal has none before it there, and some limits are named otherwise.
fn source_name(header: &str) -> &str {
    match header {
        "MAX_JOB_BYTES" => "FILE_BYTES",
        "MAX_STATEMENTS" => "STATEMENTS",
        "MAX_COMMANDS" => "COMMANDS",
        "MAX_SESSIONS" => "SESSIONS",
        "MAX_PROGRAM" => "PROGRAMS",
        "MAX_TEXT_BYTES" => "TEXT_BYTES",
        "MAX_COLUMNS" => "COLUMNS",
        "MAX_CLASS" => "CLASS_MOST",
        "MAX_CODE" => "CODE_MOST",
        "FILE_NAME_BYTES" => "NAME_BYTES",
        other => other.strip_prefix("REFUSAL_").unwrap_or(other),
    }
}

/// The members of a structure in their order, each with its type.
fn declared(header: &str, structure: &str) -> Vec<String> {
    let body = header.split_once(&format!("}} {structure};")).unwrap().0.rsplit_once("typedef struct {").unwrap().1;
    body.split(';').map(squeezed).filter(|m| !m.is_empty()).collect()
}

/// The members' names, a part as its two.
fn members(header: &str, structure: &str) -> Vec<String> {
    let each = declared(header, structure).into_iter();
    each.flat_map(|m| {
        let (t, name) = m.split_once(' ').unwrap();
        match t {
            "rb_part" => vec![format!("{name}.place"), format!("{name}.length")],
            "rb_command_number" => vec![format!("{name}.n")],
            _ => vec![name.to_string()],
        }
    })
    .collect()
}

/// The members that an inline function fills from the numbers, in the numbers' order.
fn filled(inline: &str) -> Vec<String> {
    let mut by_number: Vec<(usize, String)> = Vec::new();
    for item in inline.split(';') {
        let Some((before, after)) = item.split_once(" = (") else { continue };
        let Some((_, number)) = after.split_once(")numbers[") else { continue };
        by_number.push((number.trim_end_matches(']').parse().unwrap(), before.split_once("->").unwrap().1.to_string()));
    }
    assert!(by_number.iter().map(|(n, _)| *n).eq(0..by_number.len()), "each number is taken once, in their order");
    by_number.into_iter().map(|(_, member)| member).collect()
}

/// The name of a parameter, or of a member.
fn name_of(p: &str) -> &str {
    p.rsplit([' ', '*']).next().unwrap()
}

/// The parameters of an inline function, and its body.
fn taken_apart(inline: &str) -> (Vec<String>, String) {
    let (head, body) = inline.split_once(") {").unwrap();
    (head.split_once('(').unwrap().1.split(',').map(squeezed).collect(), squeezed(body))
}

/// Whether an inline function returns what the call behind it does: of its own parameters in their order, and twice the count of its parts.
fn hands_on(name: &str, inline: &str) -> bool {
    let (parameters, body) = taken_apart(inline);
    let given = parameters.iter().map(|p| match p.strip_suffix(" *cells") {
        Some(t) => format!("({} *)cells", t.replace("rb_part", "size_t")),
        None => name_of(p).replace("cell_count", "2 * cell_count"),
    });
    body == format!("return {name}_numbers({});", given.collect::<Vec<_>>().join(", "))
}

/// What rb_is_due gives for a parameter of the call behind it: a member of the value or of the statement, or its own parameter, which has
/// the same name and type. The value's text is given where the value is one, else no bytes.
fn given_for(p: &str, statement: &[String], own: &[String]) -> String {
    let has = |members: &[String]| members.iter().any(|m| m == p);
    match (name_of(p), name_of(p).strip_prefix("value_")) {
        ("file", _) => "file, file_bytes".to_string(),
        ("due", _) => "&yes".to_string(),
        (_, Some("text")) => "text ? value->text : file, text ? value->text_bytes : 0".to_string(),
        (_, Some(member)) => format!("value->{member}"),
        (name, None) if has(statement) => format!("statement->{name}"),
        (name, None) if has(own) => name.to_string(),
        (name, None) => format!("nothing for {name}"),
    }
}

/// Whether rb_value is what the source's parameters of a value are, and rb_is_due gives each parameter what belongs there.
fn decides_from_members(header: &str, inline: &str, source: &[String]) -> bool {
    let (own, body) = taken_apart(inline);
    let statement = declared(header, "rb_statement");
    // The lengths have no names: each follows its bytes.
    let named = || source.iter().filter(|p| *p != "size_t");
    let mut value: Vec<String> = named().filter(|p| name_of(p).starts_with("value_")).map(|p| p.replace("value_", "")).collect();
    value.push("size_t text_bytes".to_string());
    let given: Vec<String> = named().map(|p| given_for(p, &statement, &own)).collect();
    let asks = format!("rb_result result = rb_is_due_numbers({});", given.join(", "));
    declared(header, "rb_value") == value
        && body
            == format!(
                "bool text = value->kind == RB_OPERAND_STRING; uint32_t yes = 0; {asks} \
                 if (result != RB_DONE) return result; *due = yes == 1; return RB_DONE;"
            )
}

/// A parameter with the name left out where it is a length, a constant put in, and C's word for a class.
fn header_parameter(p: &str, constants: &BTreeMap<String, u64>) -> String {
    let mut p = squeezed(p).replace("error_class", "class");
    for (name, value) in constants {
        p = p.replace(&format!("[RB_{name}]"), &format!("[{value}]"));
    }
    let is_length = p.starts_with("size_t ") && !p.contains('*') && !["at", "quote", "operand_quote", "columns"].contains(&name_of(&p));
    if is_length { "size_t".into() } else { p }
}

fn header_calls(text: &str, constants: &BTreeMap<String, u64>) -> Calls {
    let lines: Vec<&str> = text.lines().filter(|l| !l.starts_with('#')).collect();
    let mut calls = Calls::new();
    for item in lines.join("\n").split(';') {
        let Some((before, rest)) = item.split_once('(') else { continue };
        let words = squeezed(before);
        let Some((returned, name)) = words.rsplit_once(' ') else { continue };
        let inner = rest.rsplit_once(')').unwrap().0;
        let returned = returned.rsplit(' ').next().unwrap().to_string();
        calls.insert(name.to_string(), (inner.split(',').filter(|p| *p != "void").map(|p| header_parameter(p, constants)).collect(), returned));
    }
    calls
}

/// Constants that follow from others.
fn derived(c: &BTreeMap<String, u64>) -> Vec<(&'static str, u64)> {
    let limit = |name: &str| c[name];
    let reply: u64 = (1..=limit("COMMANDS")).map(|n| 50 + n.to_string().len() as u64).sum();
    vec![
        ("MAX_RECORD_BYTES", 50 + limit("COMMANDS").to_string().len() as u64 + limit("TEXT_BYTES")),
        ("MAX_REPLY_BYTES", reply),
        ("TABLE_BYTES", 16 * (1 + limit("SESSIONS") * (2 + limit("COMMANDS")))),
        ("DONE", 0),
    ]
}

fn main() {
    let (header, inlines) = without_inlines(&without_comments(&fs::read_to_string("include/raddlebrush.h").unwrap()));
    let rattle = source("raddlebrush_c");
    let mut known = rattle_constants(&(source("counts") + &source("session_name") + &source("c_numbers") + &source("raddlebrush")));
    known.extend(derived(&known).into_iter().map(|(name, value)| (name.to_string(), value)));
    let constants = header_constants(&header);
    let mut faults = 0;
    for (name, value) in &constants {
        let source = known.get(source_name(name));
        if source != Some(value) {
            println!("RB_{name} is {value} in the header, and {source:?} in the source");
            faults += 1;
        }
    }
    for name in COUNTS {
        if !header.contains(&format!("typedef struct {{ {COUNT} n; }} {name};")) {
            println!("{name} is not a structure of one {COUNT}");
            faults += 1;
        }
    }
    if !header.contains(PART) {
        println!("rb_part is not a structure of a place and a length");
        faults += 1;
    }
    for name in BY_PARTS {
        if !hands_on(name, &inlines[name]) {
            println!("{name} does not hand on what it is given, its parts as numbers");
            faults += 1;
        }
    }
    for (structure, inline, count) in
        [("rb_statement", "rb_read_statement", "STATEMENT_NUMBERS"), ("rb_record", "rb_read_record", "RECORD_NUMBERS")]
    {
        let (has, takes) = (members(&header, structure), filled(&inlines[inline]));
        let numbers: Vec<_> = has.into_iter().filter(|m| m != "mantissa").collect();
        if numbers != takes || takes.len() as u64 != constants[count] {
            println!("{structure}\n  members {numbers:?}\n  filled  {takes:?}");
            faults += 1;
        }
    }
    let (ours, theirs) = (rattle_calls(&rattle), header_calls(&header, &constants));
    if !decides_from_members(&header, &inlines["rb_is_due"], &ours["rb_is_due_numbers"].0) {
        println!("rb_is_due does not give each parameter the member of its name");
        faults += 1;
    }
    let names: std::collections::BTreeSet<_> = ours.keys().chain(theirs.keys()).collect();
    for name in names {
        if ours.get(name) != theirs.get(name) {
            println!("{name}\n  source {:?}\n  header {:?}", ours.get(name), theirs.get(name));
            faults += 1;
        }
    }
    println!("{} calls and {} constants of the header, {faults} unlike the source", theirs.len(), constants.len());
    if faults > 0 || ours.is_empty() {
        std::process::exit(1);
    }
}
