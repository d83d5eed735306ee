//! The rules of the house, which no proof sees: layers, layout constants, the believed shelf, what is named and not
//! used, laws that nothing rests on, places that proofs go back to, why each holds, long lines, paths in the docs.
//! Each is a function of a tree of texts, so that a test can plant what it has to find.

use std::collections::{BTreeMap, BTreeSet, HashSet};
use std::fs;
use std::iter;
use std::path::Path;

/// The text of each file, by its path in the repository.
type Tree = BTreeMap<String, String>;

/// The two boards of the believed shelf: the heading of its table, and the files and lines that it may hold at most.
const BOARDS: [(&str, usize, usize); 2] = [("### What the calls do", 26, 1_401), ("### What is demanded", 13, 1_491)];
/// What is stated beside the library's own statements.
const STATEMENTS: [&str; 3] = [
    "crates/model/specs/Demands.antt",
    "crates/model_batch/specs/Statements.antt",
    "crates/batch/specs/Statements.antt",
];

const WIDEST: usize = 120;

/// Crates that the kit brings.
const KIT: [&str; 1] = ["io"];

/// Traits of the library, each with where it is and the method that it is imported for.
const TRAITS: [(&str, &str, &str); 1] = [("std::io", "Read", "read")];

/// Folders that are made, and not the repository's own.
const MADE: [&str; 3] = [".git", "target", "out"];

fn read(root: &Path, folder: &Path, tree: &mut Tree) {
    for entry in fs::read_dir(folder).unwrap() {
        let path = entry.unwrap().path();
        let name = path.strip_prefix(root).unwrap().to_str().unwrap();
        if !path.is_dir() {
            tree.insert(name.to_string(), String::from_utf8_lossy(&fs::read(&path).unwrap()).into_owned());
        } else if !MADE.iter().any(|made| path.ends_with(made)) {
            read(root, &path, tree);
        }
    }
}

fn numbered(text: &str) -> impl Iterator<Item = (usize, &str)> {
    (1..).zip(text.lines())
}

/// The lines of a source; an import over several of them is one.
fn source_lines(text: &str) -> impl Iterator<Item = (usize, &str)> {
    let (mut rest, mut next) = (text, 1);
    iter::from_fn(move || {
        let mut end = rest.split_inclusive('\n').next()?.len();
        if Import::of(&rest[..end]).is_some() && rest[..end].contains('{') {
            let closed = rest.find('}').map_or(end, |at| at + 1);
            end = end.max(closed + rest[closed..].split_inclusive('\n').next().map_or(0, str::len));
        }
        let (line, lines) = (next, &rest[..end]);
        next += lines.lines().count();
        rest = &rest[end..];
        Some((line, lines.trim_end()))
    })
}

fn crate_of(path: &str) -> Option<&str> {
    Some(path.strip_prefix("crates/")?.split_once('/')?.0)
}

/// The sources of the crates: path, crate and text.
fn sources(tree: &Tree) -> impl Iterator<Item = (&str, &str, &str)> {
    tree.iter()
        .filter(|(path, _)| path.ends_with(".rt") || path.ends_with(".antt"))
        .filter_map(|(path, text)| Some((path.as_str(), crate_of(path)?, text.as_str())))
}

/// A line without its remark.
fn code<'a>(path: &str, line: &'a str) -> &'a str {
    line.split(if path.ends_with(".rt") { "//" } else { "--" }).next().unwrap()
}

/// The words of code or of a statement; a word that has signs in it counts in its parts too.
fn words<'a>(lines: impl Iterator<Item = &'a str>) -> HashSet<&'a str> {
    let ends = |c: char| c.is_whitespace() || matches!(c, '(' | ')' | '{' | '}' | ',' | ';' | '.');
    let signs = |c: char| matches!(c, '[' | ']' | '<' | '>' | '&' | '*' | '!' | ':' | '\'');
    lines.flat_map(|line| line.split(ends)).flat_map(|word| word.split(signs).chain([word])).collect()
}

/// `use PATH.{NAME, ..}`, `use PATH as NAME` or, in code, `use PATH::NAME;` and `use PATH::{NAME, ..};`. A module may
/// be named alone: that imports no name, but behind the module's own all of it can be named.
struct Import<'a> {
    path: &'a str,
    /// What is imported, perhaps as something else.
    items: Vec<&'a str>,
    is_code: bool,
    is_whole: bool,
    passed_on: bool,
}

impl<'a> Import<'a> {
    fn of(line: &'a str) -> Option<Import<'a>> {
        let (before, rest) = line.trim().trim_end_matches(';').split_once("use ")?;
        if !["", "pub ", "ghost "].contains(&before) {
            return None;
        }
        let (is_code, is_whole) = (rest.contains("::"), !rest.contains(".{"));
        let listed = rest.split_once("::{").or_else(|| rest.split_once(".{"));
        let (path, items) = match listed.or_else(|| rest.rsplit_once("::")) {
            Some((path, items)) => (path, items.trim_end_matches('}').split(',').map(str::trim).collect()),
            None if rest.contains(" as ") => (rest.split(' ').next()?, vec![rest]),
            None => (rest, vec![]),
        };
        let items = items.into_iter().filter(|item: &&str| !item.is_empty()).collect();
        Some(Import { path, items, is_code, is_whole, passed_on: before == "pub " })
    }

    fn all(text: &'a str) -> impl Iterator<Item = Import<'a>> {
        source_lines(text).filter_map(|(_, line)| Import::of(line))
    }

    /// By which names the file then speaks of it.
    fn names(&self) -> impl Iterator<Item = &'a str> + '_ {
        self.items.iter().filter_map(|item| item.rsplit(' ').next())
    }

    /// In code: the whole path of each item.
    fn paths(&self) -> impl Iterator<Item = String> + '_ {
        let items = self.items.iter().filter(|_| self.is_code);
        items.filter_map(|item| Some(format!("{}::{}", self.path, item.split(' ').next()?)))
    }

    /// The file under `crates/*/specs` or `crates/*/proofs` that it names; some of these the prover writes.
    fn file(&self) -> Option<String> {
        let (home, module) = self.path.strip_prefix("Rattle.")?.split_once('.')?;
        Some(format!("crates/{home}/{}.antt", module.replace('.', "/")))
    }
}

/// A crate as `crates.txt` lists it.
struct Listed<'a> {
    line: usize,
    layer: &'a str,
    name: &'a str,
    uses: Vec<&'a str>,
}

/// The crates, the lowest layer first.
fn listed(tree: &Tree) -> Vec<Listed<'_>> {
    let (mut layer, mut crates) = ("", Vec::new());
    for (line, text) in numbered(&tree["crates.txt"]) {
        if let Some(heading) = text.strip_prefix("## ") {
            layer = heading.split(':').next().unwrap();
        } else if let Some((head, uses)) = text.split_once(':').filter(|_| !text.starts_with('#')) {
            let name = head.split(' ').next().unwrap();
            crates.push(Listed { line, layer, name, uses: uses.split_whitespace().collect() });
        }
    }
    crates
}

fn layers(tree: &Tree) -> Vec<String> {
    let (crates, mut found) = (listed(tree), Vec::new());
    for (place, Listed { line, layer, name, uses }) in crates.iter().enumerate() {
        for used in uses.iter().filter(|used| !KIT.contains(used)) {
            let what = match crates.iter().position(|other| other.name == *used) {
                None => "which is not listed".to_string(),
                Some(other) if other < place => continue,
                Some(other) if crates[other].layer == *layer => "which its layer lists no earlier".to_string(),
                Some(other) => format!("which is of the later layer '{}'", crates[other].layer),
            };
            found.push(format!("crates.txt:{line}: {name} uses {used}, {what}"));
        }
        if !tree.keys().any(|path| crate_of(path) == Some(name)) {
            found.push(format!("crates.txt:{line}: {name} has no folder crates/{name}"));
        }
    }
    let folders: BTreeSet<&str> = tree.keys().filter_map(|path| crate_of(path)).collect();
    let unlisted = folders.into_iter().filter(|folder| crates.iter().all(|known| known.name != *folder));
    found.extend(unlisted.map(|folder| format!("crates.txt:1: does not list crates/{folder}")));
    found
}

/// How long a memory has to be is a caller's business too.
const LENGTHS: [&str; 2] = ["NEEDED", "LARGEST"];

/// Where things stand in the two memories is the matter of the crates that are named after them.
fn layout_constants(tree: &Tree) -> Vec<String> {
    let mut constants = HashSet::new();
    for owner in ["hall", "desk"] {
        let lines = tree[&format!("crates/{owner}/src/lib.rt")].lines();
        let names = lines.filter_map(|line| line.strip_prefix("pub const ")?.split(':').next());
        constants.extend(names.filter(|name| !LENGTHS.contains(name)).map(|name| format!("{owner}::{name}")));
    }
    let mut found = Vec::new();
    for (path, krate, text) in sources(tree).filter(|(path, ..)| path.ends_with(".rt")) {
        if ["hall", "desk"].contains(&krate.split('_').next().unwrap()) {
            continue;
        }
        for (line, text) in numbered(text) {
            let words = code(path, text).split(|c: char| !c.is_alphanumeric() && c != '_' && c != ':');
            let named = words.filter(|word| constants.contains(*word));
            found.extend(named.map(|word| format!("{path}:{line}: names the layout constant {word}")));
        }
    }
    found
}

/// The spec files that the clauses of the public calls name: those that `store` passes on, and those for C.
fn public_specs(tree: &Tree) -> Vec<String> {
    let store = &tree["crates/store/src/lib.rt"];
    let calls: HashSet<String> = Import::all(store).flat_map(|import| import.paths().collect::<Vec<_>>()).collect();
    let mut specs = Vec::new();
    for (path, krate, text) in sources(tree) {
        let Some((_, module)) = path.trim_end_matches(".rt").split_once("/src/") else { continue };
        let home = if module == "lib" { krate.to_string() } else { format!("{krate}::{}", module.replace('/', "::")) };
        for item in text.split("\npub ") {
            let head = item.split("\n{").next().unwrap();
            let name = head.trim_start_matches("fn ").split(['(', '<']).next().unwrap();
            if calls.contains(&format!("{home}::{name}")) || head.starts_with("extern \"C\" fn ") {
                let said = words(head.split("ensures ").skip(1));
                let named = Import::all(text).filter(|import| import.names().any(|name| said.contains(name)));
                specs.extend(named.filter_map(|import| import.file()));
            }
        }
    }
    specs
}

/// These files and all that they import, each with its lines but for remarks, imports and blank ones.
fn closure(tree: &Tree, mut open: Vec<String>) -> BTreeMap<&str, usize> {
    let mut closure = BTreeMap::new();
    while let Some(path) = open.pop() {
        let Some((path, text)) = tree.get_key_value(&path) else { continue };
        let lines = source_lines(text).map(|(_, line)| line);
        let said = lines.filter(|line| !code(path, line).trim().is_empty() && Import::of(line).is_none());
        if closure.insert(path.trim_start_matches("crates/"), said.count()).is_none() {
            open.extend(Import::all(text).filter_map(|import| import.file()));
        }
    }
    closure
}

/// What a reader has to believe: what the public clauses say, and what the demands say beside that.
fn shelf(tree: &Tree) -> [BTreeMap<&str, usize>; 2] {
    let calls = closure(tree, public_specs(tree));
    let over_bytes = tree.keys().filter(|path| path.starts_with("crates/store/specs/"));
    let statements = over_bytes.filter(|path| !path.ends_with("/Lib.antt")).cloned();
    let mut demands = closure(tree, statements.chain(STATEMENTS.map(String::from)).collect());
    demands.retain(|path, _| !calls.contains_key(path));
    [calls, demands]
}

fn believed(tree: &Tree, boards: [(&str, usize, usize); 2]) -> Vec<String> {
    let mut found = Vec::new();
    let page: Vec<&str> = tree["docs/THEOREMS.md"].lines().collect();
    for ((heading, most_files, most_lines), board) in boards.into_iter().zip(shelf(tree)) {
        let line = 1 + page.iter().position(|line| *line == heading).unwrap_or(page.len());
        let section = page.iter().skip(line).take_while(|line| !line.starts_with('#'));
        let said: BTreeSet<String> = section.filter(|line| line.starts_with("| `")).map(ToString::to_string).collect();
        let rows: BTreeSet<String> = board.iter().map(|(path, lines)| format!("| `{path}` | {lines} |")).collect();
        if said != rows {
            let rows: Vec<String> = rows.into_iter().collect();
            found.push(format!("docs/THEOREMS.md:{line}: '{heading}' has to list\n{}", rows.join("\n")));
        }
        let (files, lines) = (board.len(), board.values().sum::<usize>());
        if files > most_files || lines > most_lines {
            let bar = format!("the bar is {most_files} files and {most_lines} lines");
            found.push(format!("docs/THEOREMS.md:{line}: '{heading}' has {files} files and {lines} lines, {bar}"));
        }
    }
    found
}

/// A crate is used where it is named, and where a named crate imports a type of it.
fn unused_crates(tree: &Tree) -> Vec<String> {
    let (mut named, mut lent) = (HashSet::new(), HashSet::new());
    for (path, krate, text) in sources(tree) {
        for line in text.lines() {
            for word in code(path, line).split(|c: char| !c.is_alphanumeric() && !matches!(c, '_' | ':' | '.')) {
                match word.strip_prefix("Rattle.") {
                    Some(rest) => named.extend(rest.split('.').next().map(|other| (krate, other))),
                    None => named.extend(word.split('.').filter_map(|part| Some((krate, part.split_once("::")?.0)))),
                }
            }
        }
        let is_type = |name: &str| name.starts_with(char::is_uppercase) && name.contains(char::is_lowercase);
        let paths = Import::all(text).filter(|import| import.is_code && !import.path.contains("::"));
        let types = paths.filter(|import| import.items.iter().any(|item| is_type(item)));
        lent.extend(types.map(|import| (krate, import.path)));
    }
    let (crates, mut found) = (listed(tree), Vec::new());
    for Listed { line, name, uses, .. } in &crates {
        let names = |other| named.contains(&(*name, other));
        let borrows = |other| crates.iter().any(|lender| names(lender.name) && lent.contains(&(lender.name, other)));
        let unused = uses.iter().filter(|other| !names(**other) && !borrows(**other));
        found.extend(unused.map(|other| format!("crates.txt:{line}: {name} does not use {other}")));
    }
    found
}

/// An operator is used where all its signs are, and bind also by a `do`.
fn is_used(name: &str, words: &HashSet<&str>) -> bool {
    let is_operator = name.contains('◌');
    let mut signs = name.split('◌').filter(|sign| !sign.is_empty());
    let is_bound = name == "◌>>=◌" && words.contains("do");
    words.contains(name) || is_bound || is_operator && signs.all(|sign| words.contains(sign))
}

fn unused_names(tree: &Tree) -> Vec<String> {
    let mut found = Vec::new();
    for (path, _, text) in sources(tree) {
        let said = source_lines(text).map(|(_, line)| line).filter(|line| Import::of(line).is_none());
        let words = words(said.map(|line| code(path, line)));
        for (line, text) in source_lines(text) {
            let Some(import) = Import::of(text).filter(|import| !import.passed_on) else { continue };
            let by_method = |name| TRAITS.iter().any(|it| (it.0, it.1) == (import.path, name) && words.contains(it.2));
            let unused = import.names().filter(|name| !is_used(name, &words) && !by_method(*name));
            found.extend(unused.map(|name| format!("{path}:{line}: imports {name} and does not use it")));
        }
    }
    found
}

/// What may stand before the name of a declaration.
const MARKS: [&str; 5] = ["pub ", "abbrev ", "unfoldable ", "record ", "data "];

/// Lines that belong together: those of a declaration or, with no name, a section's head, an import that is passed on,
/// a file of code.
struct Block<'a> {
    line: usize,
    name: &'a str,
    lines: Vec<&'a str>,
}

fn indent(line: &str) -> usize {
    line.len() - line.trim_start().len()
}

/// The name that a line of specs or proofs declares.
fn declared(line: &str) -> Option<&str> {
    let (mut rest, mut is_type) = (line.trim_start(), false);
    while let Some(mark) = MARKS.iter().find(|mark| rest.starts_with(**mark)) {
        rest = &rest[mark.len()..];
        is_type |= ["record ", "data "].contains(mark) && !rest.starts_with('{');
    }
    let (name, mut after) = rest.split_once(' ')?;
    while let Some(levels) = after.strip_prefix('{') {
        after = levels.split_once('}')?.1.trim_start();
    }
    (is_type || after.starts_with(':')).then_some(name)
}

/// The blocks of a file. Fields, constructors and what stands under `where` belong to the declaration above them.
fn blocks<'a>(path: &str, text: &'a str) -> Vec<Block<'a>> {
    let (mut level, mut blocks) = (0, vec![Block { line: 1, name: "", lines: vec![] }]);
    for (line, text) in source_lines(text).map(|(line, text)| (line, code(path, text))) {
        let import = Import::of(text);
        if text.trim().is_empty() || text.starts_with("infix") || import.as_ref().is_some_and(|it| !it.passed_on) {
            continue;
        }
        level = level.min(indent(text));
        let is_section = text.trim_start().starts_with("module _");
        let name = if is_section || import.is_some() { Some("") } else { declared(text) };
        if let Some(name) = name.filter(|_| indent(text) == level && path.ends_with(".antt")) {
            blocks.push(Block { line, name, lines: vec![] });
            level += if is_section { 2 } else { 0 };
        }
        blocks.last_mut().unwrap().lines.push(text);
    }
    blocks
}

/// A declaration: its file and its name.
type Named<'a> = (&'a str, &'a str);
type Files<'a> = BTreeMap<&'a str, Vec<Block<'a>>>;

/// What the words of a file may name: its own declarations, and those that it imports.
fn scope<'a>(path: &str, text: &'a str, files: &Files<'a>) -> Vec<Named<'a>> {
    let names = |file: &str| {
        let (file, blocks) = files.get_key_value(file)?;
        Some(blocks.iter().map(|block| (*file, block.name)).filter(|(_, name)| !name.is_empty()))
    };
    let mut scope: Vec<Named> = names(path).into_iter().flatten().collect();
    for import in Import::all(text) {
        let all = import.file().and_then(|file| names(&file)).into_iter().flatten();
        scope.extend(all.filter(|(_, name)| import.is_whole || import.names().any(|it| it == *name)));
    }
    scope
}

/// Is it the proof of a statement, or a worked case? Its type takes nothing, and is a name of the specs, perhaps
/// applied; in specs any type.
fn is_claim(path: &str, block: &Block, scope: &[Named]) -> bool {
    let Some((first, rest)) = block.lines.split_first() else { return false };
    let said = first.strip_prefix("pub ").and_then(|line| line.strip_prefix(block.name)?.strip_prefix(" : "));
    let head = said.and_then(|said| said.split(' ').next()?.rsplit('.').next());
    let is_stated = scope.iter().any(|(file, name)| file.contains("/specs/") && Some(*name) == head);
    let mut said = said.iter().chain(rest.iter().take_while(|line| indent(line) > 0));
    said.all(|line| !line.contains('→')) && (is_stated || head.is_some() && path.contains("/specs/"))
}

/// Edits with the files that they change.
fn edits(tree: &Tree) -> impl Iterator<Item = (String, &str)> {
    tree.iter().filter(|(path, _)| path.ends_with(".edit")).filter_map(|(path, text)| {
        let file = text.strip_prefix("file: ")?.lines().next()?;
        Some((format!("crates/{}/{file}", crate_of(path)?), text.as_str()))
    })
}

/// Code, edits, claims and the proofs of functions stand for themselves: a declaration that none of them rests on has
/// no use.
fn unused_laws(tree: &Tree) -> Vec<String> {
    let files: Files = sources(tree).map(|(path, _, text)| (path, blocks(path, text))).collect();
    let scopes: BTreeMap<&str, Vec<Named>> =
        sources(tree).map(|(path, _, text)| (path, scope(path, text, &files))).collect();
    let all = || files.iter().flat_map(|(path, blocks)| blocks.iter().map(|block| (*path, block)));
    let stands = |path: &str, block: &Block| {
        let is_taken = if path.ends_with("/Proof.antt") { block.name.ends_with("_spec") } else { is_answer(block) };
        block.name.is_empty() || is_proof(path) && is_taken || is_claim(path, block, &scopes[path])
    };
    let standing = all().filter(|(path, block)| stands(path, block));
    let mut open: Vec<_> = standing.map(|(path, block)| (&scopes[path], block.lines.clone())).collect();
    open.extend(edits(tree).filter_map(|(file, text)| Some((scopes.get(&*file)?, text.lines().collect()))));
    let mut used = HashSet::new();
    while let Some((scope, lines)) = open.pop() {
        let words = words(lines.into_iter());
        for (file, name) in scope.iter().filter(|(_, name)| is_used(name, &words)) {
            if used.insert((*file, *name)) {
                let blocks = files[file].iter().filter(|block| block.name == *name);
                open.extend(blocks.map(|block| (&scopes[file], block.lines.clone())));
            }
        }
    }
    let unused = all().filter(|(path, block)| !block.name.is_empty() && !used.contains(&(*path, block.name)));
    unused.map(|(path, block)| format!("{path}:{}: {} is used nowhere", block.line, block.name)).collect()
}

/// What is written of a function's proof, in one file or by answers and invariants. It stands in the function's folder;
/// a folder of laws has a capital letter.
fn is_proof(path: &str) -> bool {
    let mut parts = path.rsplit('/');
    let is_part = ["Proof.antt", "Answers.antt", "Invariants.antt"].contains(&parts.next().unwrap());
    is_part && path.contains("/proofs/") && parts.next().is_some_and(|folder| folder != "proofs" && !is_capital(folder))
}

fn is_capital(word: &str) -> bool {
    word.starts_with(char::is_uppercase)
}

/// The answer to a goal, or an invariant that the check asks for, as `returns : goal.returns`.
fn is_answer(block: &Block) -> bool {
    let goal = block.lines.first().and_then(|line| line.rsplit_once(" : ")?.1.split_once('.'));
    goal.is_some_and(|(_, name)| name == block.name)
}

/// The proofs of functions: path and text.
fn proofs(tree: &Tree) -> impl Iterator<Item = (&str, &str)> {
    sources(tree).filter(|(path, ..)| is_proof(path)).map(|(path, _, text)| (path, text))
}

/// The places that a line goes back to by two steps or more, as in `c.before.before` and `(start c).before.before`.
fn places(line: &str) -> Vec<&str> {
    const STEP: &str = ".before";
    let in_word = |c: char| c.is_alphanumeric() || matches!(c, '_' | '-' | '\'');
    let is_step = |at: usize| line[at..].strip_prefix(STEP).is_some_and(|rest| !rest.starts_with(in_word));
    let (mut found, mut seen) = (Vec::new(), 0);
    while let Some(at) = line[seen..].find(STEP).map(|at| seen + at) {
        seen = at;
        while is_step(seen) {
            seen += STEP.len();
        }
        if seen - at > STEP.len() {
            found.push(&line[place_from(&line[..at], in_word)..seen]);
        }
        seen = seen.max(at + STEP.len());
    }
    found
}

/// Where the word or the bracket begins that the text ends with.
fn place_from(text: &str, in_word: impl Fn(char) -> bool) -> usize {
    let mut open = 0;
    for (at, c) in text.char_indices().rev() {
        match c {
            ')' => open += 1,
            '(' if open == 0 => return at + 1,
            '(' => open -= 1,
            '.' => {}
            _ if open == 0 && !in_word(c) => return at + c.len_utf8(),
            _ => {}
        }
        if open == 0 && c == '(' {
            return at;
        }
    }
    0
}

/// Within a declaration of a proof, or an answer of its list, a place that is gone back to has a name.
fn unnamed_places(tree: &Tree) -> Vec<String> {
    let mut found = Vec::new();
    for (path, text) in proofs(tree) {
        let mut times: BTreeMap<&str, usize> = BTreeMap::new();
        for (line, text) in numbered(text) {
            let text = code(path, text);
            if indent(text) == 0 && declared(text).is_some() || text.starts_with("    (λ ") {
                times.clear();
            }
            for place in places(text) {
                let times = times.entry(place).or_default();
                *times += 1;
                if *times == 2 {
                    found.push(format!("{path}:{line}: the place '{place}' is gone back to twice without a name"));
                }
            }
        }
    }
    found
}

/// A proof of a function begins with why it holds.
fn reasons(tree: &Tree) -> Vec<String> {
    let silent = proofs(tree).filter(|(_, text)| !text.starts_with("-- "));
    silent.map(|(path, _)| format!("{path}:1: does not begin with why it holds")).collect()
}

fn is_page(path: &str) -> bool {
    path == "README.md" || path.starts_with("docs/")
}

/// Of code, statements and docs; imports and rows of tables may be longer.
fn long_lines(tree: &Tree) -> Vec<String> {
    let is_source = |path: &str| crate_of(path).is_some() && (path.ends_with(".rt") || path.contains("/specs/"));
    let mut found = Vec::new();
    for (path, text) in tree.iter().filter(|(path, _)| is_page(path) || is_source(path)) {
        for (line, text) in numbered(text) {
            let may_be_long = if is_page(path) { text.starts_with('|') } else { Import::of(text).is_some() };
            let length = text.chars().count();
            if length > WIDEST && !may_be_long {
                found.push(format!("{path}:{line}: has {length} characters"));
            }
        }
    }
    found
}

/// Paths in backticks: of the repository, under `crates/` or, as `specs/..`, under some crate.
fn lost_paths(tree: &Tree) -> Vec<String> {
    let is_there = |path: &str| {
        let (file, folder) = (format!("/{path}"), format!("/{}/", path.trim_end_matches('/')));
        tree.keys().any(|known| format!("/{known}").ends_with(&file) || format!("/{known}").contains(&folder))
    };
    let mut found = Vec::new();
    for (path, text) in tree.iter().filter(|(path, _)| is_page(path)) {
        for (line, text) in numbered(text) {
            let quoted = text.split('`').skip(1).step_by(2).flat_map(str::split_whitespace);
            let is_built = |word: &str| word.starts_with("target/") || word.contains("/out/");
            let paths = quoted.filter(|word| word.contains('/') && !word.starts_with('/') && !is_built(word));
            let lost = paths.map(|word| word.trim_start_matches("./")).filter(|word| !is_there(word));
            found.extend(lost.map(|word| format!("{path}:{line}: names `{word}`, which is not there")));
        }
    }
    found
}

#[test]
fn the_house_is_in_order() {
    let (root, mut tree) = (Path::new(concat!(env!("CARGO_MANIFEST_DIR"), "/..")), Tree::new());
    read(root, root, &mut tree);
    let checks = [
        layers,
        layout_constants,
        unused_crates,
        unused_names,
        unused_laws,
        unnamed_places,
        reasons,
        long_lines,
        lost_paths,
    ];
    let mut found: Vec<String> = checks.iter().flat_map(|check| check(&tree)).collect();
    found.extend(believed(&tree, BOARDS));
    assert!(found.is_empty(), "{} found:\n{}", found.len(), found.join("\n"));
}

/// A small repository in which all is in order.
const SMALL: &str = "\
=> crates.txt
## Rules: the lowest
model:
## Memory
hall: model
desk: model
## Calls
call_make: model hall
store staticlib: model call_make io
=> crates/model/src/lib.rt
pub struct Start(pub u64);
=> crates/model/specs/Lib.antt
pub mod State
=> crates/model/specs/State.antt
-- what a store is
use Rattle.std.specs.Prelude.{ℕ, ◌+◌}

pub grown : ℕ → ℕ
grown n = n + 1
=> crates/model/specs/Calls.antt
pub make : Type 0
=> crates/model/specs/Demands.antt
use Rattle.model.specs.State.{grown}
abbrev pub Grows : Type 0
Grows = grown 0 ≡ 1
=> crates/model/proofs/Laws.antt
use Rattle.model.specs.State.{grown}
use Rattle.model.specs.Demands

module _ (n : ℕ) where
  pub more {ℓ} : grown n ≡ n + 1
  more = refl

pub grows : Demands.Grows
grows = more 0
=> crates/hall/src/lib.rt
pub const HEAD: usize = model::WIDTH;
=> crates/hall/specs/Widths.antt
abbrev pub wide : ℕ
abbrev pub narrow : ℕ → ℕ
narrow n = narrow n
=> crates/hall/must-fail/wide.edit
file: specs/Widths.antt
old: narrow
new: wide
=> crates/hall/proofs/clear/Proof.antt
-- A row is one byte more.
use Rattle.model.proofs.Laws.{more}

returns : tie.Need-returns
returns c = more c.before.before.n

pub clear_spec : {M : Type 1} → statement M
clear_spec =
    tie.close (tie.spec returns
    (λ c. more c.before.before.n))
=> crates/hall/proofs/rows/fill/Answers.antt
-- Each row is filled, and what stands behind them stays.
use Rattle.model.proofs.Laws.{more}
use Rattle.hall.proofs.rows.fill.Goals as goal

filled : (n : ℕ) → grown n ≡ n + 1
filled n = more n

pub returns-then-full : goal.returns-then-full
returns-then-full c = filled c.loop-i.i
=> crates/hall/proofs/rows/fill/Invariants.antt
-- So many rows are filled.
use Rattle.hall.proofs.rows.fill.Given as goal

abbrev pub invariant-loop-i : goal.invariant-loop-i
invariant-loop-i l = l.filled ≡ l.i
=> crates/desk/src/lib.rt
pub const NEEDED: usize = 9 * model::WIDTH;
=> crates/call_make/src/lib.rt
ghost use Rattle.model.specs.Calls.{make};

use model::{
    Start,
};

// Memory at hall::HEAD.
pub fn make(hall: &mut [u8]) -> Start
    ensures { Made hall.new
        (make result) }
{
    hall::clear(hall)
}
=> crates/store/src/lib.rt
pub use call_make::{make};
pub use io::print;
=> docs/THEOREMS.md
Stated in `specs/State.antt`, proved in `crates/model/`; made by `./test` in `target/log`.
Run as `crates/store/out/store`.
### What the calls do
| `model/specs/Calls.antt` | 1 |
### What is demanded
| `model/specs/Demands.antt` | 2 |
| `model/specs/State.antt` | 2 |
=> test
";

/// What a check finds in the small repository once `old` is `new` in a file.
fn planted(check: impl Fn(&Tree) -> Vec<String>, path: &str, old: &str, new: &str) -> Vec<String> {
    let files = SMALL.split("=> ").skip(1).filter_map(|file| file.split_once('\n'));
    let mut tree: Tree = files.map(|(path, text)| (path.to_string(), text.to_string())).collect();
    assert_eq!(check(&tree), [""; 0]);
    let text = tree.entry(path.to_string()).or_default();
    assert!(text.contains(old), "{path} does not say {old}");
    *text = text.replacen(old, new, 1);
    check(&tree)
}

#[test]
fn what_is_made_is_not_read() {
    let root = Path::new(env!("CARGO_TARGET_TMPDIR")).join("house");
    for folder in ["src", "out/incremental"] {
        fs::create_dir_all(root.join("crates/hall").join(folder)).unwrap();
        fs::write(root.join("crates/hall").join(folder).join("words"), "").unwrap();
    }
    let mut tree = Tree::new();
    read(&root, &root, &mut tree);
    assert_eq!(tree.into_keys().collect::<Vec<_>>(), ["crates/hall/src/words"]);
}

#[test]
fn layers_are_told() {
    let planted = |old, new| planted(layers, "crates.txt", old, new);
    assert_eq!(
        planted("model:", "model: hall"),
        ["crates.txt:2: model uses hall, which is of the later layer 'Memory'"]
    );
    assert_eq!(
        planted("hall: model", "hall: desk"),
        ["crates.txt:4: hall uses desk, which its layer lists no earlier"]
    );
    assert_eq!(planted("hall: model", "hall: lost"), ["crates.txt:4: hall uses lost, which is not listed"]);
    assert_eq!(planted("desk: model\n", ""), ["crates.txt:1: does not list crates/desk"]);
    assert_eq!(planted("## Calls", "more:"), ["crates.txt:6: more has no folder crates/more"]);
}

#[test]
fn layout_constants_are_told() {
    let planted = |old, new| planted(layout_constants, "crates/call_make/src/lib.rt", old, new);
    let told = |line| [format!("crates/call_make/src/lib.rt:{line}: names the layout constant hall::HEAD")];
    assert_eq!(planted("hall::clear(hall)", "hall[hall::HEAD] = desk::NEEDED"), told(12));
    assert_eq!(planted("use model::{", "use hall::HEAD;\nuse model::{"), told(3));
}

#[test]
fn the_believed_shelf_is_told() {
    let [(calls, ..), (demands, ..)] = BOARDS;
    let has_to_list = |line, board, rows: &str| format!("docs/THEOREMS.md:{line}: '{board}' has to list\n{rows}");
    let check = |tree: &Tree| believed(tree, [(calls, 1, 1), (demands, 2, 4)]);
    let rows = "| `model/specs/Demands.antt` | 2 |\n| `model/specs/State.antt` | 2 |";
    assert_eq!(planted(check, "docs/THEOREMS.md", "| 2 |", "| 3 |"), [has_to_list(5, demands, rows)]);
    let clause = planted(check, "crates/call_make/src/lib.rt", "(make result)", "(made result)");
    assert_eq!(clause, [has_to_list(3, calls, "")]);
    let for_c = "\nghost use Rattle.model.specs.Lib.{kept};\npub extern \"C\" fn hb()\n    ensures { kept }\n{\n}\n";
    let for_c = planted(check, "crates/desk/src/lib.rt", "\n", for_c);
    let bar = |line, board, has, most| format!("docs/THEOREMS.md:{line}: '{board}' has {has}, the bar is {most}");
    let both = "| `model/specs/Calls.antt` | 1 |\n| `model/specs/Lib.antt` | 1 |";
    assert_eq!(for_c, [has_to_list(3, calls, both), bar(3, calls, "2 files and 2 lines", "1 files and 1 lines")]);
    let longer = planted(check, "crates/model/specs/State.antt", "\n\n", "\npub more : ℕ\n");
    let rows = rows.replace("State.antt` | 2 |", "State.antt` | 3 |");
    let bar = bar(5, demands, "2 files and 5 lines", "2 files and 4 lines");
    assert_eq!(longer, [has_to_list(5, demands, &rows), bar]);
}

#[test]
fn unused_crates_are_told() {
    let planted_in = |path, old, new| planted(unused_crates, path, old, new);
    let planted = |old, new| planted_in("crates.txt", old, new);
    assert_eq!(planted("desk: model", "desk: model hall"), ["crates.txt:5: desk does not use hall"]);
    assert_eq!(planted("hall\nstore", "hall io\nstore"), ["crates.txt:7: call_make does not use io"]);
    let print = planted_in("crates/store/src/lib.rt", "io::print", "out::print");
    assert_eq!(print, ["crates.txt:8: store does not use io"]);
}

#[test]
fn unused_names_are_told() {
    let state = "crates/model/specs/State.antt";
    let told = |line, name| [format!("{state}:{line}: imports {name} and does not use it")];
    assert_eq!(planted(unused_names, state, "n + 1", "n -- and + 1"), told(2, "◌+◌"));
    assert_eq!(planted(unused_names, state, "\n\n", "\nuse Rattle.model.specs.Calls as calls\n"), told(3, "calls"));
    assert_eq!(planted(unused_names, state, "{ℕ", "{suc, ℕ"), told(2, "suc"));
    let planted = |old, new| planted(unused_names, "crates/call_make/src/lib.rt", old, new);
    let told = |line, name| [format!("crates/call_make/src/lib.rt:{line}: imports {name} and does not use it")];
    assert_eq!(planted("-> Start", "-> Starts"), told(3, "Start"));
    assert_eq!(planted("    Start,\n", "    Commit as At,\n    Start,\n"), told(3, "At"));
    assert_eq!(planted("\n\n", "\nghost use Rattle.model.specs.State.{grown};\n\n"), told(2, "grown"));
    assert_eq!(planted("use model", "use std::io::Read;\nuse model"), told(3, "Read"));
    assert_eq!(planted("use model", "use std::io::Read;\nfn fill() { input.read() }\nuse model"), [""; 0]);
}

#[test]
fn unused_laws_are_told() {
    let (state, laws) = ("crates/model/specs/State.antt", "crates/model/proofs/Laws.antt");
    let (proof, edit) = ("crates/hall/proofs/clear/Proof.antt", "crates/hall/must-fail/wide.edit");
    let told = |path: &str, line, name| format!("{path}:{line}: {name} is used nowhere");
    let recursive = "  pub most : ℕ → ℕ\n  most n = most n\n  pub more {ℓ}";
    assert_eq!(planted(unused_laws, laws, "  pub more {ℓ}", recursive), [told(laws, 5, "most")]);
    let of_the_unused = "pub most : ℕ\nmost = more 1\n\npub last : ℕ\nlast = most\n\npub grows";
    assert_eq!(planted(unused_laws, laws, "pub grows", of_the_unused), [told(laws, 8, "most"), told(laws, 11, "last")]);
    let unproved = [told(laws, 8, "grows"), told("crates/model/specs/Demands.antt", 2, "Grows")];
    assert_eq!(planted(unused_laws, laws, "pub grows", "grows"), unproved);
    assert_eq!(planted(unused_laws, proof, "spec returns", "spec"), [told(proof, 4, "returns")]);
    let answers = "crates/hall/proofs/rows/fill/Answers.antt";
    assert_eq!(planted(unused_laws, answers, "= filled c", "= more c"), [told(answers, 5, "filled")]);
    let unasked = [told(answers, 5, "filled"), told(answers, 8, "returns")];
    assert_eq!(planted(unused_laws, answers, "returns-then-full :", "returns :"), unasked);
    let invariants = "crates/hall/proofs/rows/fill/Invariants.antt";
    let unasked = planted(unused_laws, invariants, "-i : goal", "-j : goal");
    assert_eq!(unasked, [told(invariants, 4, "invariant-loop-j")]);
    assert_eq!(planted(unused_laws, edit, "wide", "wider"), [told("crates/hall/specs/Widths.antt", 1, "wide")]);
    assert_eq!(planted(unused_laws, state, "\n\n", "\n\npub worked : grown 1 ≡ 2\nworked = refl\n\n"), [""; 0]);
}

#[test]
fn unnamed_places_are_told() {
    let proof = "crates/hall/proofs/clear/Proof.antt";
    let answers = "crates/hall/proofs/rows/fill/Answers.antt";
    let told = |path, line, place| format!("{path}:{line}: the place '{place}' is gone back to twice without a name");
    let in_answers = planted(unnamed_places, answers, "c.loop-i.i", "(c.n.before.before.i) c.n.before.before");
    assert_eq!(in_answers, [told(answers, 9, "c.n.before.before")]);
    let planted = |new| planted(unnamed_places, proof, "c.before.before.n\n", &format!("{new}\n"));
    assert_eq!(planted("c.before.before.n\n    (c.before.before)"), [told(proof, 6, "c.before.before")]);
    let started = "(f (start c).before.before.n (start c).before.before)";
    assert_eq!(planted(started), [told(proof, 5, "(start c).before.before")]);
    assert_eq!(planted("c.before.before.before.n c.before.n c.before.before"), [""; 0]);
    assert_eq!(planted("c.before.before.n (start c).before.before.n c.before.before-n"), [""; 0]);
}

#[test]
fn reasons_are_asked_for() {
    let proof = "crates/hall/proofs/clear/Proof.antt";
    assert_eq!(planted(reasons, proof, "-- A", "A"), [format!("{proof}:1: does not begin with why it holds")]);
    for part in ["Answers", "Invariants"].map(|part| format!("crates/hall/proofs/rows/fill/{part}.antt")) {
        assert_eq!(planted(reasons, &part, "-- ", "--"), [format!("{part}:1: does not begin with why it holds")]);
    }
}

#[test]
fn long_lines_are_told() {
    let (most, over) = ("λ".repeat(WIDEST), "λ".repeat(WIDEST + 1));
    for path in ["crates/hall/src/lib.rt", "crates/model/specs/State.antt", "docs/THEOREMS.md", "README.md"] {
        let planted = |line: &str| planted(long_lines, path, "", &format!("{line}\n"));
        assert_eq!(planted(&over), [format!("{path}:1: has 121 characters")]);
        assert_eq!(planted(&most), [""; 0]);
        assert_eq!(planted(&if is_page(path) { format!("| {over} |") } else { format!("use {over}") }), [""; 0]);
    }
}

#[test]
fn lost_paths_are_told() {
    let planted = |new| planted(lost_paths, "docs/THEOREMS.md", "crates/model/", new);
    assert_eq!(planted("crates/mode"), ["docs/THEOREMS.md:1: names `crates/mode`, which is not there"]);
    assert_eq!(planted("rules/specs"), ["docs/THEOREMS.md:1: names `rules/specs`, which is not there"]);
    for there in ["model/specs", "crates/hall/out/hall"] {
        assert_eq!(planted(there), [""; 0]);
    }
}
