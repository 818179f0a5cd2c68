//! Master data: what is taken, and every kind of mistake with what is said of it. Tabs are written as spaces here, and `_` is an empty field.

use bookkeeper::book::{Book, Sizes};
use bookkeeper::masters::read;

/// Lines of a small sound book, `sizes` the first: 2 depots, 2 farms a district, 3 items.
fn sound() -> Vec<String> {
    let mut lines = vec!["sizes 2 2 3 4 8".to_string()];
    for w in 1..=2 {
        lines.push(format!("depot {w} {}", 1_000 * w));
        for d in 1..=10 {
            lines.push(format!("district {w} {d} {}", 100 * w + d));
            lines.push(format!("farm {w} {d} 1 ALM EVA good {}", 10 * d));
            lines.push(format!("farm {w} {d} 2 BACH{d} _ bad 0"));
        }
        for i in 1..=3 {
            lines.push(format!("stock {w} {i} {}", 50 * w + i));
        }
    }
    lines.extend(["item 1 100", "item 2 250 0 10", "item 3 0 9990 10"].map(String::from));
    lines
}

fn text(lines: &[String]) -> Vec<u8> {
    lines.iter().flat_map(|line| (line.replace(' ', "\t").replace('_', "") + "\n").into_bytes()).collect()
}

fn mistakes(text: &[u8]) -> Vec<String> {
    read(text).err().expect("mistakes were expected")
}

/// The line in which the sound lines start with a text, counted from 1.
fn number_of(start: &str) -> usize {
    sound().iter().position(|line| line.starts_with(start)).expect("a line of the sound book") + 1
}

/// What is said where one line of the sound book is another, without `line N`.
fn said(start: &str, with: &[u8]) -> Vec<String> {
    let mut lines: Vec<Vec<u8>> = sound().iter().map(|line| text(std::slice::from_ref(line))).collect();
    lines[number_of(start) - 1] = [with, b"\n"].concat();
    let prefix = format!("line {}", number_of(start));
    mistakes(&lines.concat()).iter().map(|mistake| mistake.strip_prefix(&prefix).unwrap_or(mistake).to_string()).collect()
}

/// The same, tabs and empty fields written as above.
fn said_of(start: &str, with: &str) -> Vec<String> {
    said(start, with.replace(' ', "\t").replace('_', "").as_bytes())
}

fn same(one: &Book, other: &Book) -> bool {
    one == other
}

#[test]
fn a_sound_book_is_read_whole_and_opens() {
    let book = read(&text(&sound())).expect("a sound book");
    let sizes = Sizes::of([2, 2, 3, 4, 8]).unwrap();
    let mut expected = Book::blank(sizes);
    for w in 1..=2 {
        expected.nums[sizes.warehouse_at(w)] = 1_000 * w as i64;
        for d in 1..=10 {
            expected.nums[sizes.district_at(w, d)] = (100 * w + d) as i64;
            expected.nums[sizes.customer_at(w, d, 1) + 1] = 10 * d as i64;
            expected.nums[sizes.customer_at(w, d, 2)] = 1;
            let at = sizes.farm(w, d, 1) * 32;
            expected.names[at..at + 64].copy_from_slice(format!("{:16}{:16}{:32}", "ALM", "EVA", format!("BACH{d}")).as_bytes());
        }
        for i in 1..=3 {
            expected.nums[sizes.stock_at(w, i)] = (50 * w + i) as i64;
        }
    }
    for (i, price) in [(1, 100), (2, 250), (3, 0)] {
        expected.nums[sizes.item_at(i)] = price;
    }
    expected.topup = vec![10, 91, 0, 10, 9_990, 10];
    assert!(same(&book, &expected));
    assert_eq!(book.opening(), [0, 0]);
}

#[test]
fn what_spreadsheets_write_is_taken() {
    let lines = sound();
    let book = read(&text(&lines)).unwrap();
    let mut turned = lines.clone();
    turned[1..].reverse();
    let plain = text(&lines);
    let windows = String::from_utf8(plain.clone()).unwrap().replace('\n', "\r\n");
    let ragged = String::from_utf8(plain.clone()).unwrap().replace('\n', "\t\t\t\r\n\t\t\r\n\r\n\n# tax\tin ten-thousandths\n#\n");
    for other in [
        text(&turned),
        plain[..plain.len() - 1].to_vec(),
        windows.clone().into_bytes(),
        windows.trim_end().as_bytes().to_vec(),
        [b"\xef\xbb\xbf".as_slice(), windows.as_bytes()].concat(),
        [b"\xef\xbb\xbf# masters\n\n".as_slice(), ragged.as_bytes()].concat(),
        String::from_utf8(plain).unwrap().replace("good", "0").replace("bad", "1").replace("\t1000\n", "\t0001000\n").into_bytes(),
    ] {
        assert!(same(&book, &read(&other).expect("a sound book")));
    }
}

/// Each number's range: the ends are taken, what lies beyond is not, nor is what is no number.
#[test]
fn numbers() {
    for (start, with, field, name, low, high) in [
        ("depot 2", "depot 2 @", 3, "tax", 0, 9_999),
        ("district 2 10", "district 2 10 @", 4, "tax", 0, 9_999),
        ("farm 2 10 2", "farm 2 10 2 ALM BO good @", 8, "discount", 0, 9_999),
        ("item 2", "item 2 @", 3, "price", 0, 99_999),
        ("item 2", "item 2 5 @ 10", 4, "margin", 0, 9_990),
        ("item 2", "item 2 5 0 @", 5, "lift", 10, 9_999),
        ("stock 2 3", "stock 2 3 @", 4, "on_hand", 0, 9_999),
    ] {
        for value in [low, high] {
            let mut lines = sound();
            lines[number_of(start) - 1] = with.replace('@', &value.to_string());
            assert_eq!(read(&text(&lines)).expect("an end of the range").opening(), [0, 0]);
        }
        let beyond = [low - 1, high + 1].map(|value: i64| value.to_string());
        let no_numbers = ["12x", "x", "-", "+5", "0x1", "5e3", "18446744073709551617", "99999999999999999999", "Müller", "\"5\""];
        for wrong in no_numbers.map(String::from).into_iter().chain(beyond) {
            assert_eq!(said_of(start, &with.replace('@', &wrong)), [format!(", field {field} ({name}): {wrong:?} is not {low} to {high}")]);
        }
        for wrong in ["1,000", "1.000", "10.00", "1'000", "1 000", " 10", "10 ", "1\u{a0}000"] {
            let digits = if wrong.contains('\u{a0}') { "" } else { " in digits alone" };
            let with = with.replace(' ', "\t").replace('@', wrong);
            assert_eq!(said(start, with.as_bytes()), [format!(", field {field} ({name}): {wrong:?} is not {low} to {high}{digits}")]);
        }
    }
    assert_eq!(said("depot 2", b"depot\t2\t1\xff0"), [", field 3 (tax): \"1\u{fffd}0\" is not 0 to 9999"]);
    let long = "9".repeat(1_000);
    assert_eq!(said_of("depot 2", &format!("depot 2 {long}")), [format!(", field 3 (tax): \"{}\"... is not 0 to 9999", &long[..60])]);
}

/// A number that says which row it is: the row itself is then missing, and that is said too.
#[test]
fn keys() {
    for (start, with, field, name, high) in [
        ("depot 2", "depot @ 1", 2, "depot", 2),
        ("district 2 10", "district @ 10 1", 2, "depot", 2),
        ("district 2 10", "district 2 @ 1", 3, "district", 10),
        ("farm 2 10 2", "farm @ 10 2 ALM BO bad 0", 2, "depot", 2),
        ("farm 2 10 2", "farm 2 @ 2 ALM BO bad 0", 3, "district", 10),
        ("farm 2 10 2", "farm 2 10 @ ALM BO bad 0", 4, "farm", 2),
        ("item 3", "item @ 100", 2, "item", 3),
        ("stock 2 3", "stock @ 3 1", 2, "depot", 2),
        ("stock 2 3", "stock 2 @ 1", 3, "item", 3),
    ] {
        for wrong in ["0".to_string(), (high + 1).to_string(), "x".to_string(), "_".to_string()] {
            let shown = wrong.replace('_', "");
            let expected = [format!(", field {field} ({name}): {shown:?} is not 1 to {high}"), format!("{start} is not given")];
            assert_eq!(said_of(start, &with.replace('@', &wrong)), expected);
        }
    }
}

#[test]
fn names() {
    let farm = |last: &[u8], first: &[u8]| [b"farm\t1\t3\t2\t".as_slice(), last, b"\t", first, b"\tbad\t0"].concat();
    let last = |shown: &str| format!(", field 5 (last): {shown:?} is not 1 to 16 ASCII bytes 32 to 126 (no umlauts), the first no space");
    let first = |shown: &str| format!(", field 6 (first): {shown:?} is not 0 to 16 ASCII bytes 32 to 126 (no umlauts)");
    for wrong in ["", " ALM", " ", "A2345678901234567", "Müller", "A\u{7f}", "A\u{1f}B", "A\rB", "A\0", "\u{a0}"] {
        assert_eq!(said("farm 1 3 2", &farm(wrong.as_bytes(), b"EVA")), [last(wrong)]);
    }
    for wrong in ["A2345678901234567", "Jürgen", "A\u{7f}", "\u{1f}"] {
        assert_eq!(said("farm 1 3 2", &farm(b"ALM", wrong.as_bytes())), [first(wrong)]);
    }
    assert_eq!(said("farm 1 3 2", &farm(b"M\xfcller", b"J\xfcrgen")), [last("M\u{fffd}ller"), first("J\u{fffd}rgen")]);
    for (l, f) in [("A", ""), ("A234567890123456", "B234567890123456"), ("~!\"#$%", "  B  "), ("VON DER ALM", " "), ("O'BRIEN, J.", "\\")] {
        let lines: Vec<u8> = sound().iter().flat_map(|line| match line.starts_with("farm 1 3 2") {
            true => [&farm(l.as_bytes(), f.as_bytes())[..], b"\n"].concat(),
            false => text(std::slice::from_ref(line)),
        }).collect();
        let book = read(&lines).expect("a sound name");
        assert_eq!(book.name(1, 3, 2), (format!("{l:16}").as_bytes(), format!("{f:16}").as_bytes()));
        assert_eq!(book.opening(), [0, 0]);
    }
}

#[test]
fn credit() {
    for wrong in ["", "2", "Good", "GOOD", "goo", "goodbad", "yes", "00", "-1"] {
        let with = format!("farm 1 3 2 ALM EVA {} 0", if wrong.is_empty() { "_" } else { wrong });
        assert_eq!(said_of("farm 1 3 2", &with), [format!(", field 7 (credit): {wrong:?} is not good, bad, 0 or 1")]);
    }
}

#[test]
fn margin_and_lift() {
    let together = |margin, lift| vec![format!(", field 5 (lift): {lift} and the margin {margin} are not up to 10000 together")];
    assert_eq!(said_of("item 2", "item 2 5 9990 11"), together(9_990, 11));
    assert_eq!(said_of("item 2", "item 2 5 2 9999"), together(2, 9_999));
    assert_eq!(said_of("item 2", "item 2 5 5000"), [", field 5 (lift): \"\" is not 10 to 9999"]);
    assert_eq!(said_of("item 2", "item 2 5 _ 91"), [", field 4 (margin): \"\" is not 0 to 9990"]);
    assert_eq!(said_of("item 2", "item 2 5 9991 9999"), [", field 4 (margin): \"9991\" is not 0 to 9990"]);
    for (with, topup) in [("item 2 5 1 9999", [1, 9_999]), ("item 2 5 9990 10", [9_990, 10]), ("item 2 5", [10, 91]), ("item 2 5 _ _", [10, 91])] {
        let mut lines = sound();
        lines[number_of("item 2") - 1] = with.to_string();
        let book = read(&text(&lines)).expect("a sound top-up");
        assert_eq!((&book.topup[2..4], book.opening()), (&topup[..], [0, 0]));
    }
}

#[test]
fn too_few_and_too_many_fields() {
    assert_eq!(said_of("depot 2", "depot 2"), [", field 3 (tax): \"\" is not 0 to 9999"]);
    let neither = [", field 2 (depot): \"\" is not 1 to 2", ", field 3 (tax): \"\" is not 0 to 9999", "depot 2 is not given"];
    assert_eq!(said_of("depot 2", "depot"), neither);
    assert_eq!(said_of("item 2", "item 2"), [", field 3 (price): \"\" is not 0 to 99999"]);
    let shifted = [", field 7 (credit): \"70\" is not good, bad, 0 or 1", ", field 8 (discount): \"\" is not 0 to 9999"];
    assert_eq!(said_of("farm 1 3 2", "farm 1 3 2 ALM good 70"), shifted);
    assert_eq!(said_of("depot 2", "depot 2 7 x"), [", field 4: \"x\" is too much, depot has 3 fields, here are 4"]);
    assert_eq!(said_of("item 2", "item 2 7 10 91 _ _ x"), [", field 6: \"\" is too much, item has 5 fields, here are 8"]);
    let both = [", field 5: \"9\" is too much, stock has 4 fields, here are 5", ", field 4 (on_hand): \"x\" is not 0 to 9999"];
    assert_eq!(said_of("stock 2 3", "stock 2 3 x 9"), both);
}

#[test]
fn words() {
    for wrong in ["Depot", "depots", "warehouse", "\"depot\"", "depot,2,5", "depot;2;5", "\u{feff}depot"] {
        let expected = [format!(", field 1: {wrong:?} is not depot, district, farm, item or stock and a tab"), "depot 2 is not given".to_string()];
        assert_eq!(said_of("depot 2", &format!("{wrong} 2 5")), expected);
    }
    assert_eq!(said("depot 2", b"\tdepot\t2\t5")[0], ", field 1: \"\" is not depot, district, farm, item or stock and a tab");
    assert_eq!(said_of("depot 2", "sizes 2 2 3 4 8"), [", field 1: \"sizes\" is not allowed a second time", "depot 2 is not given"]);
}

#[test]
fn a_row_twice() {
    for (row, with) in [
        ("depot 2", "depot 2 5"),
        ("district 2 10", "district 2 10 5"),
        ("farm 1 3 2", "farm 1 3 2 ALM BO good 0"),
        ("item 1", "item 1 5"),
        ("stock 2 3", "stock 2 3 5"),
    ] {
        let mut lines = sound();
        let end = lines.len();
        lines.extend([with.to_string(), with.to_string()]);
        let first = number_of(row);
        let expected = [format!("line {}: {row} was given in line {first}", end + 1), format!("line {}: {row} was given in line {first}", end + 2)];
        assert_eq!(mistakes(&text(&lines)), expected);
    }
    // A row with a mistake in what it holds is given all the same, and a second one is judged too.
    let mut lines = sound();
    lines[1] = "depot 1 x".to_string();
    lines.push("depot 1 y".to_string());
    let end = lines.len();
    let expected = [
        "line 2, field 3 (tax): \"x\" is not 0 to 9999".to_string(),
        format!("line {end}, field 3 (tax): \"y\" is not 0 to 9999"),
        format!("line {end}: depot 1 was given in line 2"),
    ];
    assert_eq!(mistakes(&text(&lines)), expected);
}

#[test]
fn missing_rows() {
    let without = |starts: &[&str]| {
        let lines: Vec<String> = sound().into_iter().filter(|line| !starts.iter().any(|start| line.starts_with(start))).collect();
        mistakes(&text(&lines))
    };
    assert_eq!(without(&["farm 1 3 2"]), ["farm 1 3 2 is not given"]);
    assert_eq!(without(&["item 3", "stock 1 3", "depot 1"]), ["depot 1 is not given", "item 3 is not given", "stock 1 3 is not given"]);
    let runs = ["farm 1 3 2 to farm 1 4 2 are not given, 3 lines", "stock 1 3 to stock 2 1 are not given, 2 lines"];
    assert_eq!(without(&["farm 1 3 2", "farm 1 4", "stock 1 3", "stock 2 1"]), runs);
    let apart = ["farm 1 1 1 is not given", "farm 1 5 1 is not given", "farm 2 10 2 is not given"];
    assert_eq!(without(&["farm 1 1 1", "farm 2 10 2", "farm 1 5 1"]), apart);
    let nothing = [
        "depot 1 to depot 2 are not given, 2 lines",
        "district 1 1 to district 2 10 are not given, 20 lines",
        "farm 1 1 1 to farm 2 10 2 are not given, 40 lines",
        "item 1 to item 3 are not given, 3 lines",
        "stock 1 1 to stock 2 3 are not given, 6 lines",
    ];
    assert_eq!(mistakes(b"sizes\t2\t2\t3\t4\t8\n"), nothing);
}

#[test]
fn sizes() {
    const UNJUDGED: &str = "; the lines behind it were not judged, since what they may hold follows from the sizes";
    let of = |line: &str| mistakes(&[line.replace(' ', "\t").replace('_', "").as_bytes(), b"\ndepot\t1\tx\nnonsense\n"].concat());
    let ranges = [("depots", 20), ("farms", 3_000), ("items", 100_000), ("orders", 10_000), ("payments", 1_000_000)];
    for (place, (name, high)) in ranges.iter().enumerate() {
        for wrong in ["0".to_string(), (high + 1).to_string(), "x".to_string(), "_".to_string()] {
            let mut sizes = ["1"; 5];
            sizes[place] = &wrong;
            let (field, shown) = (place + 2, wrong.replace('_', ""));
            let expected = format!("line 1, field {field} ({name}): {shown:?} is not 1 to {high}{UNJUDGED}");
            assert_eq!(of(&format!("sizes {}", sizes.join(" "))), [expected]);
        }
        let mut sizes = ["1"; 5].map(String::from);
        sizes[place] = high.to_string();
        assert!(mistakes(format!("sizes\t{}", sizes.join("\t")).as_bytes())[0].starts_with("depot 1 "));
    }
    let items = "line 1, field 4 (items): \"x\" is not 1 to 100000".to_string();
    assert_eq!(of("sizes 1 2 x 4"), [items, format!("line 1, field 6 (payments): \"\" is not 1 to 1000000{UNJUDGED}")]);
    assert_eq!(of("sizes 1 1 1 1 1 1"), [format!("line 1, field 7: \"1\" is too much, sizes has 6 fields, here are 7{UNJUDGED}")]);
    const FIRST: &str = "is not sizes and a tab, which come first (tab-separated ASCII text)";
    let first = |line, shown| vec![format!("line {line}, field 1: {shown} {FIRST}{UNJUDGED}")];
    assert_eq!(of("depot 1 5"), first(1, "\"depot\""));
    assert_eq!(of("sizes,1,1,1,1,1"), first(1, "\"sizes,1,1,1,1,1\""));
    assert_eq!(of("# sizes 1\n\nSizes 1 1 1 1 1"), first(3, "\"Sizes\""));
    assert_eq!(mistakes(b""), first(1, "\"\""));
    assert_eq!(mistakes(b"# nothing\n\n"), first(1, "\"\""));
    assert_eq!(mistakes(b"\xff\xfes\0i\0z\0e\0s\0\t\0"), first(1, "\"\u{fffd}\u{fffd}s\\0i\\0z\\0e\\0s\\0\""));
}

/// All of them, in the order of the lines, then what is missing.
#[test]
fn every_mistake_is_said() {
    let mut lines = sound();
    lines[number_of("district 1 4") - 1] = "district 1 4 1,5".to_string();
    lines[number_of("farm 1 3 1") - 1] = "farm 1 3 3 Müller EVA fair 10000".to_string();
    lines[number_of("item 2") - 1] = "# item 2 250".to_string();
    let (farm, district) = (number_of("farm 1 3 1"), number_of("district 1 4"));
    let expected = [
        format!("line {farm}, field 4 (farm): \"3\" is not 1 to 2"),
        format!("line {farm}, field 5 (last): \"Müller\" is not 1 to 16 ASCII bytes 32 to 126 (no umlauts), the first no space"),
        format!("line {farm}, field 7 (credit): \"fair\" is not good, bad, 0 or 1"),
        format!("line {farm}, field 8 (discount): \"10000\" is not 0 to 9999"),
        format!("line {district}, field 4 (tax): \"1,5\" is not 0 to 9999 in digits alone"),
        "farm 1 3 1 is not given".to_string(),
        "item 2 is not given".to_string(),
    ];
    assert_eq!(mistakes(&text(&lines)), expected);
    let mut many = sound();
    many.extend((0..20_000).map(|_| "stock 1 1 x".to_string()));
    assert_eq!(mistakes(&text(&many)).len(), 40_000);
}

/// Bytes changed, taken out and put in at random: mistakes are said, or the book is one that opening accepts.
#[test]
fn damaged_at_random() {
    let (sound, mut seed, mut taken) = (text(&sound()), 22_u64, 0);
    let mut random = |below: usize| {
        seed = seed.wrapping_mul(6_364_136_223_846_793_005).wrapping_add(1_442_695_040_888_963_407);
        (seed >> 33) as usize % below
    };
    for _ in 0..4_000 {
        let mut damaged = sound.clone();
        for _ in 0..1 + random(3) {
            let at = random(damaged.len());
            match random(4) {
                0 => damaged[at] = random(256) as u8,
                1 => damaged[at] = b"0123456789\t\n\r #"[random(15)],
                2 => drop(damaged.remove(at)),
                _ => damaged.insert(at, b"0123456789\t\n"[random(12)]),
            }
        }
        match read(&damaged) {
            Ok(book) => {
                taken += 1;
                assert_eq!(book.opening(), [0, 0]);
            }
            Err(mistakes) => assert!(!mistakes.is_empty() && mistakes.iter().all(|mistake| !mistake.contains(['\n', '\t', '\r']))),
        }
    }
    assert!(taken > 100, "{taken} taken");
}
