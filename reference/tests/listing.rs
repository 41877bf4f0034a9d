//! The listing program.

use reference::list;

const HEAD: &str = "no\toffset\ttype\tsymbol\taddend\n";

fn run(kind: &str, table: &[u8]) -> String {
    list(&[kind.as_bytes(), b"\n", table].concat())
}

fn refused(number: u32, place: u64) -> String {
    format!("refused\t{number}\t{place}\n")
}

#[test]
fn case_p_whole() {
    let table = [0x02, 0x10, 0x81, 0x02, 0x7C, 0x7C, 0x08, 0x00, 0x03];
    let want = "no\toffset\ttype\tsymbol\taddend\n0\t16\t257\t3\t-4\n1\t24\t257\t3\t-4\n";
    assert_eq!(run("relleb64", &table), want);
    assert_eq!(run("relleb32", &table), want);
}

#[test]
fn each_kind() {
    let words = [0x100, 0x8000_0001u32].map(u32::to_le_bytes).concat();
    assert_eq!(run("relr32", &words), format!("{HEAD}0\t256\t-\t-\t-\n1\t380\t-\t-\t-\n"));
    let top = (u64::MAX - 7).to_le_bytes();
    assert_eq!(run("relr64", &top), format!("{HEAD}0\t18446744073709551608\t-\t-\t-\n"));
    let apr1 = b"APR1\x01\x04\x01\x04";
    assert_eq!(run("apr1", apr1), format!("{HEAD}0\t4\t-\t-\t-\n1\t8\t-\t-\t-\n"));
    let apa1 = b"APA1\x01\x7F\x7E";
    assert_eq!(run("apa1", apa1), format!("{HEAD}0\t18446744073709551615\t-\t-\t-2\n"));
    for (kind, empty) in
        [("relr32", &b""[..]), ("relr64", b""), ("apa1", b"APA1\0"), ("relleb32", b"\0")]
    {
        assert_eq!(run(kind, empty), HEAD);
    }
}

#[test]
fn first_line() {
    for input in [
        "",
        "\n",
        "relr64",
        "relr64\r\n",
        " relr64\n",
        "relr64 \n",
        "RELR64\n",
        "relr\n",
        "apr1\0\n",
    ] {
        assert_eq!(list(input.as_bytes()), refused(1, 0));
    }
    let mut long = vec![b'x'; 20_000];
    assert_eq!(list(&long), refused(1, 0));
    long[3] = b'\n';
    assert_eq!(list(&long), refused(1, 0));
}

#[test]
fn a_line_feed_belongs_to_the_table_behind_the_first_line() {
    assert_eq!(run("relr32", b"\n"), refused(4, 1));
    assert_eq!(run("relr32", b"\n\0\0\n\0"), refused(4, 5));
    assert_eq!(run("relr32", b"\n\0\0\0").lines().nth(1), Some("0\t10\t-\t-\t-"));
}

#[test]
fn places_count_from_the_table() {
    assert_eq!(run("apr1", b"APR1"), refused(4, 4));
    assert_eq!(run("apr1", b"APR2"), refused(3, 0));
    assert_eq!(run("apa1", b"APA1\x40"), refused(5, 4));
    assert_eq!(run("relr64", &1u64.to_le_bytes()), refused(6, 0));
    assert_eq!(run("relr32", &[0, 0, 0, 0, 0xFE, 0xFF, 0xFF, 0xFF]), refused(7, 4));
    assert_eq!(run("relleb64", b"\0\0"), refused(8, 1));
}

/// The program reads lax.
#[test]
fn padded_numbers_are_listed() {
    let apr1 = b"APR1\x81\x00\x84\x00\x81\x80\x00\x84\x00";
    assert_eq!(run("apr1", apr1), format!("{HEAD}0\t4\t-\t-\t-\n1\t8\t-\t-\t-\n"));
    let apa1 = b"APA1\x81\x00\xFF\x7F\x80\x00";
    assert_eq!(run("apa1", apa1), format!("{HEAD}0\t18446744073709551615\t-\t-\t0\n"));
    for kind in ["relleb32", "relleb64"] {
        assert_eq!(run(kind, b"\x01\x87\x00\x00\x7F\x00"), format!("{HEAD}0\t7\t0\t0\t0\n"));
    }
}

#[test]
fn limits() {
    let zeros = vec![0; 16_385];
    assert_eq!(run("relr64", &zeros), refused(2, 0));
    assert_eq!(run("relleb32", &zeros), refused(2, 0));
    assert_eq!(run("apr1", &zeros), refused(2, 0));
    assert_eq!(run("apr1", &zeros[1..]), refused(3, 0));
    assert_eq!(run("relr64", &zeros[1..]), refused(9, 0));
    assert_eq!(run("relr64", &zeros[..8 * 1_024]).lines().count(), 1_025);
    assert_eq!(run("relr64", &zeros[..8 * 1_025]), refused(9, 0));
    assert_eq!(run("relr32", &zeros[..16_383]), refused(4, 16_383));
    let mut faulty = zeros[..8 * 1_026].to_vec();
    faulty[8 * 1_025..].fill(0xFF);
    faulty[8 * 1_025] = 0xFE;
    assert_eq!(run("relr64", &faulty), refused(7, 8 * 1_025));
    assert_eq!(run("apr1", b"APR1\x01\x00\xFF\x07\x00").lines().count(), 1_025);
    assert_eq!(run("apr1", b"APR1\x01\x00\x80\x08\x00"), refused(9, 0));
    assert_eq!(run("apr1", b"APR1\x01\x00\xFF\xFF\xFF\xFF\x0F\x00"), refused(9, 0));
}
