//! The commands bin/certify, bin/bench, bin/bill, bin/trim and bin/path, by lines of a shell in the repository's
//! root: the exit status, and whether anything stands on standard output and on standard error.

use std::process::Command;

/// Where something is printed.
const OUTPUT: (bool, bool) = (true, false);
const ERRORS: (bool, bool) = (false, true);

#[test]
fn statuses() {
    for (line, status, printed) in [
        ("bin/certify examples/case_a/table", 0, OUTPUT),
        ("bin/certify < examples/case_a/table", 0, OUTPUT),
        ("cat examples/case_a/table | bin/certify", 0, OUTPUT),
        ("cd examples/case_a && ../../bin/certify table", 0, OUTPUT),
        ("bin/certify < /dev/null", 0, OUTPUT),
        ("bin/certify examples/latch_loop/table", 1, OUTPUT),
        ("printf 0 | bin/certify", 1, OUTPUT),
        ("bin/certify --bytes examples/case_a/table", 0, OUTPUT),
        ("bin/certify --bytes < examples/case_a/table", 0, OUTPUT),
        ("bin/certify --bytes /dev/fd/3 3< examples/case_a/table", 0, OUTPUT),
        ("bin/certify --bytes < /dev/null", 0, (false, false)),
        ("bin/certify --bytes examples/latch_loop/table", 1, ERRORS),
        ("bin/certify --bytes examples/latch_loop/table >&-", 1, ERRORS),
        ("printf 0 | bin/certify --bytes", 1, ERRORS),
        ("bin/bench examples/case_a/table examples/case_a/stimuli", 0, OUTPUT),
        ("cd examples/case_a && ../../bin/bench table stimuli", 0, OUTPUT),
        ("bin/bench examples/case_a/table /dev/null", 0, OUTPUT),
        ("bin/bench /dev/null /dev/null", 0, (false, false)),
        ("bin/bench examples/latch_loop/table /dev/null", 1, OUTPUT),
        ("bin/bench examples/case_a/table examples/case_a/table", 1, OUTPUT),
        ("bin/bill", 0, OUTPUT),
        ("bin/bill 201", 0, OUTPUT),
        ("bin/bill 007 0 4096", 0, OUTPUT),
        ("cd examples/case_a && ../../bin/bill 100 100 1", 0, OUTPUT),
        ("bin/bill {1..64}", 0, OUTPUT),
        ("bin/bill {1..65}", 1, OUTPUT),
        ("bin/bill 1 4097", 1, OUTPUT),
        ("bin/bill 4294967295", 1, OUTPUT),
        ("(trap '' XFSZ; ulimit -f 0; bin/bill x)", 2, (false, false)),
    ] {
        assert_ends(line, status, printed);
    }
}

/// The lines name the command with and without --numbers, and an example's table and certificate.
#[test]
fn statuses_of_trim() {
    for (line, status, printed) in [
        ("$trim $table $certificate 43 11", 0, OUTPUT),
        ("$trim $table $certificate", 0, OUTPUT),
        ("$trim $table $certificate 0043 11 11 0 {0..43}", 0, OUTPUT),
        ("$trim /dev/stdin $certificate 43 < $table", 0, OUTPUT),
        ("cat $certificate | $trim $table /dev/stdin 43", 0, OUTPUT),
        ("$trim /dev/fd/3 $certificate 43 3< $table", 0, OUTPUT),
        ("$trim <(cat $table) <(cat $certificate) 43", 0, OUTPUT),
        ("trim=\"../../$trim\"; cd examples/trimmed_core; $trim table certificate 43", 0, OUTPUT),
        ("$trim /dev/null /dev/null", 0, (false, false)),
        ("$trim /dev/null /dev/null > /dev/full", 0, (false, false)),
        ("$trim $table $certificate 44", 1, ERRORS),
        ("$trim $table $certificate 43 65535", 1, ERRORS),
        ("$trim $table $certificate {0..999}", 1, ERRORS),
        ("$trim $table $certificate 44 > /dev/full", 1, ERRORS),
        ("$trim $table $certificate 44 >&-", 1, ERRORS),
        ("$trim $table /dev/null", 1, ERRORS),
        ("$trim $table $table", 1, ERRORS),
        ("$trim $certificate $certificate", 1, ERRORS),
        ("$trim <(cat $table $table $table) $certificate 43", 1, ERRORS),
        ("$trim /dev/zero /dev/zero", 1, ERRORS),
        ("$trim /dev/null /dev/null 0", 1, ERRORS),
        ("$trim examples/latch_loop/table /dev/null", 1, ERRORS),
        ("$trim $table $certificate 65536", 2, ERRORS),
        ("$trim $table $certificate -1", 2, ERRORS),
        ("$trim $table $certificate +1", 2, ERRORS),
        ("$trim $table $certificate '4 3'", 2, ERRORS),
        ("$trim $table $certificate $'43\\n'", 2, ERRORS),
        ("$trim $table $certificate 43 --numbers", 2, ERRORS),
        ("$trim --numbers --numbers $table $certificate", 2, ERRORS),
        ("$trim --number $table $certificate", 2, ERRORS),
        ("$trim - $certificate < $table", 2, ERRORS),
        ("timeout 20 $trim /dev/stdin $certificate 43 <&-", 2, ERRORS),
        ("$trim $table $certificate 43 > /dev/full", 2, ERRORS),
        ("$trim $table $certificate 43 >&-", 2, ERRORS),
    ] {
        for command in ["bin/trim", "bin/trim --numbers"] {
            let names = "table=examples/trimmed_core/table certificate=examples/trimmed_core/certificate";
            assert_ends(&format!("trim='{command}' {names}; {line}"), status, printed);
        }
    }
}

/// The lines name an example's table.
#[test]
fn statuses_of_path() {
    for (line, status, printed) in [
        ("bin/path $table 30", 0, OUTPUT),
        ("bin/path $table 0", 0, OUTPUT),
        ("bin/path $table 0030", 0, OUTPUT),
        ("bin/path /dev/stdin 30 < $table", 0, OUTPUT),
        ("cat $table | bin/path /dev/stdin 30", 0, OUTPUT),
        ("bin/path /dev/fd/3 30 3< $table", 0, OUTPUT),
        ("bin/path <(cat $table) 30", 0, OUTPUT),
        ("cd examples/pin_check && ../../bin/path table 30", 0, OUTPUT),
        ("bin/path $table 1", 1, OUTPUT),
        ("bin/path $table 31", 1, OUTPUT),
        ("bin/path $table 65566", 1, OUTPUT),
        ("bin/path $table 4294967295", 1, OUTPUT),
        ("bin/path /dev/null 0", 1, OUTPUT),
        ("bin/path /dev/zero 0", 1, OUTPUT),
        ("bin/path examples/pin_check/stimuli 0", 1, OUTPUT),
        ("bin/path examples/latch_loop/table 0", 1, OUTPUT),
        ("bin/path $table 4294967296", 2, ERRORS),
        ("bin/path $table -1", 2, ERRORS),
        ("bin/path $table +1", 2, ERRORS),
        ("bin/path $table '3 0'", 2, ERRORS),
        ("bin/path $table $'30\\n'", 2, ERRORS),
        ("bin/path /dev/zero x", 2, ERRORS),
        ("bin/path - 30 < $table", 2, ERRORS),
        ("bin/path -- $table 30", 2, ERRORS),
        ("bin/path --bytes $table", 2, ERRORS),
        ("bin/path $table", 2, ERRORS),
        ("bin/path $table 30 20", 2, ERRORS),
        ("timeout 20 bin/path /dev/stdin 30 <&-", 2, ERRORS),
        ("bin/path $table 30 > /dev/full", 2, ERRORS),
        ("bin/path $table 30 >&-", 2, ERRORS),
        ("bin/path $table 1 > /dev/full", 2, ERRORS),
    ] {
        assert_ends(&format!("table=examples/pin_check/table; {line}"), status, printed);
    }
}

#[test]
fn neither_could_be_said() {
    let calls = ["bin/certify", "bin/certify --bytes", "bin/bench examples/case_a/table"];
    let bills = ["bin/bill", "bin/bill 201", "bin/bill 4097", "bin/bill {1..65}"];
    let trims = [
        "bin/trim",
        "bin/trim --numbers",
        "bin/trim examples/case_a/table",
        "bin/trim --numbers examples/case_a/table",
        "bin/trim no_such_file examples/case_a/certificate",
        "bin/trim examples/case_a/table examples/case_a/certificate",
        "bin/trim --numbers examples/case_a/table examples/case_a/certificate 6",
        "bin/trim examples/case_a/table examples/case_a/certificate 7",
        "bin/trim examples/latch_loop/table /dev/null",
    ];
    let paths = ["bin/path", "bin/path examples/case_a/table", "bin/path examples/case_a/table 6"];
    for call in calls.into_iter().chain(bills).chain(trims).chain(paths) {
        for rest in ["no_such_file", "examples", "''", "a b c", "--help"] {
            assert_ends(&format!("{call} {rest}"), 2, ERRORS);
        }
    }
    for line in [
        "bin/certify <&-",
        "bin/certify --bytes <&-",
        "bin/certify < examples",
        "bin/certify examples/case_a/table > /dev/full",
        "bin/certify --bytes examples/case_a/table > /dev/full",
        "bin/certify --bytes examples/case_a/table >&-",
        "bin/bench",
        "timeout 20 bin/bench examples/case_a/table /dev/stdin <&-",
        "bin/bench examples/case_a/table examples/case_a/stimuli > /dev/full",
        "bin/bench examples/case_a/table examples/case_a/stimuli >&-",
        "bin/bill -5",
        "bin/bill '1 2'",
        "bin/bill $'7\\n'",
        "bin/bill 4294967296",
        "bin/bill x 201",
        "bin/bill > /dev/full",
        "bin/bill 201 > /dev/full",
        "bin/bill 201 >&-",
        "bin/bill 4097 > /dev/full",
        "bin/trim",
        "bin/trim --numbers",
        "bin/path",
        "bin/path no_such_file 0",
        "bin/path examples 0",
        "bin/path '' 0",
    ] {
        assert_ends(line, 2, ERRORS);
    }
}

/// Copies the commands to `$folder`, where each of their programs is a script that says a refusal and then ends by
/// `$end`.
const COPY: &str = r#"
    rm -rf "$folder" && mkdir "$folder" && cp -r bin "$folder" || exit
    cd "$folder" && touch crates.txt || exit
    for program in certify bench bill_order trim_table trace_path; do
        mkdir -p crates/$program/out || exit
        printf '#!/bin/sh\necho refused 5 at 0 >&2\n%s\n' "$end" > crates/$program/out/$program
        chmod +x crates/$program/out/$program
    done
    set -o pipefail
"#;

/// Files are read whose names are no ASCII, or no text. What is not there is not.
#[test]
fn names_of_files() {
    let folder = concat!(env!("CARGO_TARGET_TMPDIR"), "/names of files");
    for name in ["é", "$'\\xe9'", "$'\\xf4\\x90\\x80\\x80'"] {
        let copies = format!(
            "mkdir -p '{folder}' && f='{folder}'/{name} && cp examples/trimmed_core/table \"$f\" && \
             cp examples/trimmed_core/certificate \"$f.c\" && cp /dev/null \"$f.s\" && "
        );
        for call in [
            "bin/certify \"$f\"",
            "bin/bench \"$f\" \"$f.s\"",
            "bin/trim \"$f\" \"$f.c\" 43",
            "bin/path \"$f\" 0",
        ] {
            let same =
                call.replace("$f.c", "examples/trimmed_core/certificate").replace("$f.s", "/dev/null");
            let same = same.replace("$f", "examples/trimmed_core/table");
            assert_ends(
                &format!("{copies}diff <({call} 2>&1; echo $?) <({same} 2>&1; echo $?)"),
                0,
                (false, false),
            );
        }
        for call in ["bin/bench \"$f.x\" \"$f.s\"", "bin/trim \"$f.x\" \"$f.c\" 43", "bin/path \"$f.x\" 0"]
        {
            assert_ends(&format!("{copies}{call}"), 2, ERRORS);
        }
    }
}

/// What a program says before it fails is printed, and is no refusal.
#[test]
fn programs_that_fail() {
    let folder = concat!(env!("CARGO_TARGET_TMPDIR"), "/programs that fail");
    for end in ["exit 3", "kill $$"] {
        for call in
            ["certify /dev/null", "certify --bytes /dev/null", "bench a b", "bill", "trim a b", "path a 0"]
        {
            let printed = format!("bin/{call} 2>&1 | grep -x 'refused 5 at 0'");
            assert_ends(&format!("folder='{folder}' end='{end}'{COPY}{printed}"), 2, OUTPUT);
        }
    }
}

/// Asserts that a line ends with this status and prints where it is said, and nowhere else.
fn assert_ends(line: &str, status: i32, (output, errors): (bool, bool)) {
    let ended = Command::new("bash")
        .args(["-c", line])
        .current_dir(concat!(env!("CARGO_MANIFEST_DIR"), "/../.."))
        .output()
        .expect("a shell runs");
    assert_eq!(ended.status.code(), Some(status), "{line}: {ended:?}");
    assert_eq!((!ended.stdout.is_empty(), !ended.stderr.is_empty()), (output, errors), "{line}: {ended:?}");
}
