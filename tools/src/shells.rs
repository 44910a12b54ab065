//! The shells of each block in the text of units, by the text's own shape: a shell is two lines,
//! the first with its address alone, where the interpreter in the place of a block is on one line.

/// Every call of the interpreter has these words.
const CALL: &str = "a->interp_one(m)";

/// What stands in the place of a block that has no text of its own, or before it.
#[derive(Clone, Copy, Debug, PartialEq, Eq)]
pub enum Front {
    /// The block's text alone.
    Nothing,
    /// The guard, behind whose no the interpreter takes the block.
    Guard,
    /// The interpreter, which takes the block always.
    Interpreter,
}

/// What a text has of a block.
#[derive(Clone, Debug, PartialEq, Eq)]
pub struct Printed {
    pub key: u32,
    pub front: Front,
    /// The addresses of its shells, in order.
    pub shells: Vec<u32>,
    /// The cycles of all its ticks together: the costs of its native instructions.
    pub cycles: u64,
}

/// The blocks of a unit in their order, or a line whose shape is not known.
pub fn printed(text: &str) -> Result<Vec<Printed>, String> {
    let mut blocks: Vec<Printed> = vec![];
    let mut before = "";
    for line in text.lines() {
        if let Some(key) = start(line) {
            blocks.push(Printed {
                key,
                front: Front::Nothing,
                shells: vec![],
                cycles: 0,
            });
        } else if line.contains(CALL) {
            let called = blocks
                .last_mut()
                .and_then(|block| call(block, before, line));
            called.ok_or_else(|| format!("{before}\n{line}"))?;
        } else if let Some(cycles) = between(line, "    a->tick(m, ", "u);") {
            let block = blocks.last_mut().ok_or(line)?;
            block.cycles += cycles.parse::<u64>().map_err(|_| line)?;
        }
        before = line;
    }
    Ok(blocks)
}

/// The key of the block that starts with this line: a function of its own, or a label in the
/// function of its group.
fn start(line: &str) -> Option<u32> {
    let function = between(line, "uint32_t b_", "(const RtApi* a, void* m) {");
    let label = || between(line, "L_", ":;");
    match function.or_else(label)?.split_once('_')? {
        (address, "a") => hex(address),
        (address, "t") => hex(address).map(|address| address | 1),
        _ => None,
    }
}

/// Takes a call of the interpreter in a block down, where its shape is known.
fn call(block: &mut Printed, before: &str, line: &str) -> Option<()> {
    let address = block.key & !1;
    let in_place = format!("c[15] = 0x{address:08x}u; return {CALL};");
    let empty = block.front == Front::Nothing && block.shells.is_empty() && block.cycles == 0;
    if line.ends_with(&format!(" {in_place}")) || line.ends_with(&format!(" {in_place} }}")) {
        let alone = line == format!("    {in_place}");
        let guard = line.starts_with(&format!("    if (!a->guard(m, 0x{address:08x}u, "));
        block.front = match (alone, guard) {
            (true, false) => Front::Interpreter,
            (false, true) => Front::Guard,
            _ => return None,
        };
        return empty.then_some(());
    }
    let returned = line == format!("    return {CALL};");
    let goes_on = between(
        line,
        &format!("    pc = {CALL}; if (pc != 0x"),
        "u) return pc;",
    );
    if !returned && goes_on.and_then(hex).is_none() {
        return None;
    }
    let shell = between(before, "    c[15] = 0x", "u;").and_then(hex)?;
    block.shells.push(shell);
    Some(())
}

/// What stands between the two in a line that has nothing else.
fn between<'a>(line: &'a str, front: &str, end: &str) -> Option<&'a str> {
    line.strip_prefix(front)?.strip_suffix(end)
}

/// Eight hexadecimal digits.
fn hex(digits: &str) -> Option<u32> {
    let number = u32::from_str_radix(digits, 16).ok()?;
    (format!("{number:08x}") == digits).then_some(number)
}
