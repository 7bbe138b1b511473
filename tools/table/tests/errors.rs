//! Every error of a text, with its line and what is said of it.

use table::{read_stimuli, read_table, verilog, Place};

/// A table that the errors are put into, of three lines.
const SOUND: &str = "# inputs\nkey = secret 8\ntied = fixed 4 9\n";

/// What is said of line 4 of a table: a line of its own behind the sound ones.
fn table_error(line: &str) -> String {
    let Err(problem) = read_table(&format!("{SOUND}{line}\n")) else {
        panic!("`{line}` is let through");
    };
    assert_eq!(problem.place, Place::Line(4), "{line}: {}", problem.what);
    problem.what
}

/// What is said of line 2 of a list for the sound table and a constant.
fn stimuli_error(line: &str) -> String {
    let table = read_table(&format!("{SOUND}five = constant 8 5")).unwrap();
    let problem = read_stimuli(&table, &format!("tick\n{line}\n")).unwrap_err();
    assert_eq!(problem.place, Place::Line(2), "{line}: {}", problem.what);
    problem.what
}

#[test]
fn labels() {
    assert_eq!(table_error("free 8"), "a record is written: name = kind width ..");
    assert_eq!(table_error("= free 8"), "`` is no name: letters, digits and _, not a digit first");
    assert_eq!(table_error("a b = free 8"), "`a b` is no name: letters, digits and _, not a digit first");
    assert_eq!(table_error("2x = free 8"), "`2x` is no name: letters, digits and _, not a digit first");
    assert_eq!(table_error("é = free 8"), "`é` is no name: letters, digits and _, not a digit first");
    assert_eq!(table_error("+2 = free 8"), "`+2` is no name: letters, digits and _, not a digit first");
    assert_eq!(table_error("7 = free 8"), "this is record 2, not 7");
    assert_eq!(table_error("99999999999999999999 = free 8"), "this is record 2, not 99999999999999999999");
    assert_eq!(table_error("key = free 8"), "line 2 has this name already");
}

#[test]
fn kinds_and_their_forms() {
    assert_eq!(table_error("a ="), "a kind is missing behind `=`");
    assert_eq!(
        table_error("a = nand 8 key key"),
        "there is no kind `nand`, but add, sub, and, or, xor, equal, less, shl, shr and \
         fixed, free, secret, constant, mux, register, enabled"
    );
    let forms = [
        ("fixed 8", "fixed WIDTH VALUE"),
        ("free 8 1", "free WIDTH"),
        ("secret", "secret WIDTH"),
        ("constant 8", "constant WIDTH VALUE"),
        ("mux 8 key key", "mux WIDTH A B C"),
        ("register 8 key", "register WIDTH POWER_ON A"),
        ("register 8 0 key key", "register WIDTH POWER_ON A"),
        ("enabled 8 0 key", "enabled WIDTH POWER_ON A B"),
        ("enabled 8 0 key key key", "enabled WIDTH POWER_ON A B"),
        ("add 8 key", "add WIDTH A B"),
        ("shr 8 key key key", "shr WIDTH A B"),
    ];
    for (definition, form) in forms {
        assert_eq!(table_error(&format!("a = {definition}")), format!("this kind is written: {form}"));
    }
}

#[test]
fn widths_values_and_variables() {
    assert_eq!(table_error("a = free 0"), "the width 0 is not one of 1 to 32");
    assert_eq!(table_error("a = add 33 key key"), "the width 33 is not one of 1 to 32");
    assert_eq!(table_error("a = free -1"), "`-1` is no number");
    assert_eq!(table_error("a = free +1"), "`+1` is no number");
    assert_eq!(table_error("a = constant 8 0x"), "`0x` is no number");
    assert_eq!(table_error("a = constant 8 key"), "`key` is no number");
    assert_eq!(table_error("a = constant 8 256"), "256 does not fit the width 8");
    assert_eq!(table_error("a = fixed 8 0x100"), "0x100 does not fit the width 8");
    assert_eq!(table_error("a = register 1 2 a"), "2 does not fit the width 1");
    assert_eq!(table_error("a = enabled 0 0 a a"), "the width 0 is not one of 1 to 32");
    assert_eq!(table_error("a = enabled 4 16 a key"), "16 does not fit the width 4");
    assert_eq!(table_error("a = enabled 4 a a key"), "`a` is no number");
    assert_eq!(table_error("a = constant 32 4294967296"), "4294967296 is above 2^32 - 1");
    assert_eq!(table_error("a = add 8 key lock"), "no variable has the name `lock`");
    assert_eq!(table_error("a = enabled 8 0 lock key"), "no variable has the name `lock`");
    assert_eq!(table_error("a = enabled 8 0 key 3"), "there is no variable 3: the table has 3");
    assert_eq!(table_error("a = add 8 key 3"), "there is no variable 3: the table has 3");
    assert_eq!(table_error("a = add 8 key 0x1"), "no variable has the name `0x1`");
    assert_eq!(
        table_error("a = mux 8 key key 99999999999999999999"),
        "there is no variable 99999999999999999999: the table has 3"
    );
}

#[test]
fn a_record_too_many() {
    let line = |i: usize| format!("{i} = free 1\n");
    let text: String = (0..4097).map(line).collect();
    let problem = read_table(&text).err().unwrap();
    assert_eq!(problem, Place::Line(4097).problem("a table has at most 4096 records"));
}

#[test]
fn stimuli() {
    let form = "a stimulus is written: poke INPUT VALUE, or tick, or tick TIMES";
    for line in ["poke", "poke key", "poke key 1 2", "tick 1 2", "tock", "key = 7"] {
        assert_eq!(stimuli_error(line), form);
    }
    assert_eq!(stimuli_error("tick 0"), "a tick is made once or more");
    assert_eq!(stimuli_error("tick key"), "`key` is no number");
    assert_eq!(stimuli_error("tick 4096"), "a list has at most 4096 stimuli");
    assert_eq!(stimuli_error("tick 4294967295"), "a list has at most 4096 stimuli");
    assert_eq!(stimuli_error("poke lock 1"), "no variable has the name `lock`");
    assert_eq!(stimuli_error("poke 3 1"), "there is no variable 3: the table has 3");
    assert_eq!(stimuli_error("poke five 5"), "five is no input");
    assert_eq!(stimuli_error("poke key 256"), "the value does not fit the width 8");
    // 0 is what a fixed input holds until it is poked, and no value to poke it with.
    // What does not fit it is refused for being another than its own, too.
    for line in ["poke tied 8", "poke tied 0", "poke tied 4294967295"] {
        assert_eq!(stimuli_error(line), "tied is fixed and takes no value but its own");
    }
}

#[test]
fn a_loop_has_no_verilog() {
    let table = read_table("a = free 1\n\nb = add 8 a c\nc = add 8 3 a\nd = or 8 b b\n").unwrap();
    let problem = verilog(&table, "circuit").unwrap_err();
    assert_eq!(problem, Place::Line(3).problem("a loop: b uses c uses d uses b"));
}
