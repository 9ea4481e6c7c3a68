//! Bytes that no honest role puts, each case whole and byte by byte, what a refused request is
//! told, and packets as text.
//!
//!     rustc --test --edition 2021 -o tests bench/plain/main.rs && ./tests

use crate::client::{self, Client};
use crate::http;
use crate::inproxy::{self, InProxy};
use crate::leg::{Leg, LegKind};
use crate::node::{Role, State};
use crate::outproxy::{self, OutProxy};
use crate::record::lines_of;
use crate::report::{write_number, Report};
use crate::rts::{Ack, Chain, Cookie, Packet};
use crate::server::Server;
use crate::show::Packets;
use std::collections::VecDeque;

const WINDOW: u32 = 65_536;
const LIFETIME: u32 = 1_073_741_824;
const TIMEOUT: u32 = 120_000;

fn leg(kind: LegKind, number: u32) -> Leg {
    Leg::new(kind, number)
}

fn co() -> Leg {
    leg(LegKind::ClientOut, 1)
}

fn ci() -> Leg {
    leg(LegKind::ClientIn, 1)
}

fn os() -> Leg {
    leg(LegKind::OutServer, 1)
}

fn is(number: u32) -> Leg {
    leg(LegKind::InServer, number)
}

fn bytes_of(packet: Packet) -> Vec<u8> {
    let mut bytes = Vec::new();
    packet.write(&mut bytes);
    bytes
}

fn pdu(len: usize) -> Vec<u8> {
    let mut bytes = vec![5, 0, 0, 3, 16, 0, 0, 0];
    bytes.extend_from_slice(&(len as u16).to_le_bytes());
    bytes.resize(len, 0);
    bytes
}

fn response(length: u64) -> Vec<u8> {
    let mut head = Vec::new();
    http::write_response(&mut head, length);
    head
}

fn in_request() -> Vec<u8> {
    let mut head = Vec::new();
    http::write_in_request(&mut head, LIFETIME);
    head
}

fn drawn(node: &mut dyn Role, leg: Leg) -> Vec<u8> {
    let mut flight = VecDeque::new();
    node.draw(leg, 65_536, &mut flight);
    flight.into()
}

fn client() -> Client {
    let (connection, group) = (Cookie::number(1), Cookie::number(2));
    let config = client::Config {
        connection,
        group,
        window: WINDOW,
        lifetime: LIFETIME,
        keepalive: 300_000,
    };
    let mut client = Client::new(config);
    client.up(co(), Cookie::number(3));
    client.up(ci(), Cookie::number(4));
    client
}

fn answered_client() -> Client {
    let mut client = client();
    client.bytes(co(), &response(u64::from(LIFETIME) + 65_536));
    client
}

fn in_proxy() -> InProxy {
    let config =
        inproxy::Config { number: 1, window: WINDOW, timeout: TIMEOUT, address: [127, 0, 0, 1] };
    let mut proxy = InProxy::new(config, 0);
    proxy.up(ci());
    proxy
}

fn conn_b1(lifetime: u32) -> Vec<u8> {
    let (connection, cookie, group) = (Cookie::number(1), Cookie::number(4), Cookie::number(2));
    bytes_of(Packet::ConnB1 { connection, cookie, lifetime, keepalive: 300_000, group })
}

/// An in proxy to which an IN head and CONN/B1 came.
fn asked_in_proxy() -> InProxy {
    let mut proxy = in_proxy();
    proxy.bytes(ci(), &in_request());
    proxy.bytes(ci(), &conn_b1(LIFETIME));
    proxy
}

/// An out proxy to which CONN/C1 came.
fn open_out_proxy() -> OutProxy {
    let config =
        outproxy::Config { number: 1, window: WINDOW, lifetime: LIFETIME, timeout: TIMEOUT };
    let mut proxy = OutProxy::new(config, 0);
    proxy.up(co());
    let mut head = Vec::new();
    http::write_out_request(&mut head, http::OUT_LENGTH);
    proxy.bytes(co(), &head);
    let (connection, cookie) = (Cookie::number(1), Cookie::number(3));
    proxy.bytes(co(), &bytes_of(Packet::ConnA1 { connection, cookie, window: WINDOW }));
    proxy.up(os());
    proxy.bytes(os(), b"ncacn_http/1.0");
    proxy.bytes(os(), &bytes_of(Packet::ConnC { window: WINDOW, timeout: TIMEOUT }));
    proxy
}

fn conn_b2(connection: u64) -> Vec<u8> {
    let (connection, cookie, group) =
        (Cookie::number(connection), Cookie::number(4), Cookie::number(2));
    let (window, timeout, address) = (WINDOW, TIMEOUT, [127, 0, 0, 1]);
    bytes_of(Packet::ConnB2 { connection, cookie, window, timeout, group, address })
}

fn conn_a2() -> Vec<u8> {
    let (connection, cookie) = (Cookie::number(1), Cookie::number(3));
    bytes_of(Packet::ConnA2 { connection, cookie, lifetime: LIFETIME, window: WINDOW })
}

/// A server to which CONN/A2 came.
fn server(window: u32) -> Server {
    let mut server = Server::new(window);
    server.up(os());
    server.up(is(1));
    server.bytes(os(), &conn_a2());
    server
}

fn open_server(window: u32) -> Server {
    let mut server = server(window);
    server.bytes(is(1), &conn_b2(1));
    server
}

fn successor_server() -> Server {
    let mut server = open_server(WINDOW);
    server.up(is(2));
    let (connection, predecessor, successor) =
        (Cookie::number(1), Cookie::number(4), Cookie::number(5));
    let chain = Chain { connection, predecessor, successor };
    server.bytes(is(2), &bytes_of(Packet::InR1A2 { chain, window: WINDOW, timeout: TIMEOUT }));
    server
}

fn cause(node: &dyn Role) -> String {
    match node.base().state {
        State::Closed(cause) => cause.to_string(),
        state => format!("{state:?}"),
    }
}

/// Feeds the bytes whole to one node and byte by byte to another: each is to close with the cause,
/// and to stay closed.
fn refuses<R: Role>(make: fn() -> R, leg: Leg, bytes: &[u8], want: &str) {
    for size in [bytes.len(), 1] {
        let mut node = make();
        assert!(node.is_live());
        bytes.chunks(size).for_each(|piece| node.bytes(leg, piece));
        assert_eq!(cause(&node), want);
        node.bytes(leg, &[0; 20]);
        node.ended(leg);
        node.broken(leg);
        node.tick(9_000_000);
        assert_eq!(cause(&node), want);
        assert!(node.finished(leg) || drawn(&mut node, leg).starts_with(b"HTTP/1.1 4"));
    }
}

fn hex(text: &str) -> Vec<u8> {
    let mut bytes = Vec::new();
    crate::hex::read(text.as_bytes(), &mut bytes);
    bytes
}

#[test]
fn a_client_refuses() {
    let unknown_flag = hex("0500140310000000140000000000000080000000");
    refuses(answered_client, co(), &unknown_flag, "4 BadPacket co1 83 BadFlags 16");
    refuses(answered_client, co(), &[4; 16], "3 BadFrame co1 83 Version 4");
    refuses(answered_client, co(), &pdu(16), "5 Unexpected co1 83");
    let short = [response(20), bytes_of(Packet::ConnA3 { timeout: TIMEOUT })].concat();
    refuses(client, co(), &short, "13 BodyOver co1 21 20");
    refuses(client, ci(), b"HTTP/1.1 200 OK\r\nContent-Length: 0\r\n\r\n", "9 HttpRefused ci1 200");
    let mut ended = answered_client();
    ended.bytes(co(), &bytes_of(Packet::ConnA3 { timeout: TIMEOUT })[..10]);
    ended.ended(co());
    assert_eq!(cause(&ended), "2 LegEnded co1 10");
}

#[test]
fn an_in_proxy_refuses() {
    fn headed() -> InProxy {
        let mut proxy = in_proxy();
        proxy.bytes(ci(), &in_request());
        proxy
    }
    fn connected() -> InProxy {
        let mut proxy = asked_in_proxy();
        proxy.up(is(1));
        proxy
    }
    let a5 = bytes_of(Packet::InR1A5 { successor: Cookie::number(5) });
    refuses(headed, ci(), &a5, "5 Unexpected ci1 205");
    refuses(headed, ci(), &conn_b1(131_071), "8 OutOfRange ci1 4 131071");
    refuses(connected, is(1), b"ncacn_http/1.1", "5 Unexpected is1 0");
    refuses(in_proxy, ci(), &[b'a'; 16_384], "10 BadHead ci1 16384 TooLong");
}

#[test]
fn an_out_proxy_refuses() {
    fn drawn_from() -> OutProxy {
        let mut proxy = open_out_proxy();
        drawn(&mut proxy, co());
        proxy
    }
    let ack = |received, cookie| Ack { received, window: 0, cookie: Cookie::number(cookie) };
    let early = bytes_of(Packet::AckTo { to: 3, ack: ack(1, 3) });
    refuses(open_out_proxy, os(), &early, "8 OutOfRange os1 1 1");
    let many: Vec<u8> =
        (10..27).flat_map(|n| bytes_of(Packet::AckTo { to: 0, ack: ack(0, n) })).collect();
    refuses(drawn_from, os(), &many, "12 ControlFull co1");
}

#[test]
fn a_server_refuses() {
    let cookies = "00000000-0000-0000-0000-000000000001 00000000-0000-0000-0000-000000000009";
    refuses(|| server(WINDOW), is(1), &conn_b2(9), &format!("6 CookieMismatch is1 {cookies}"));
    let two = [pdu(8_192), pdu(16)].concat();
    refuses(|| open_server(8_192), is(1), &two, "7 WindowExceeded is1 8208 8192");
    refuses(successor_server, is(2), &pdu(16), "7 WindowExceeded is2 16 0");
    refuses(|| server(WINDOW), is(1), &conn_a2(), "5 Unexpected is1 0");
}

/// What an in proxy draws for a request head with another path or length.
fn answer(from: &str, to: &str) -> (String, usize) {
    let head = String::from_utf8(in_request()).unwrap().replace(from, to);
    let mut proxy = in_proxy();
    proxy.bytes(ci(), head.as_bytes());
    let len = drawn(&mut proxy, ci()).len();
    (cause(&proxy), len)
}

#[test]
fn requests_are_answered() {
    assert_eq!(answer("1073741824", "16"), ("Ended".to_string(), 95));
    assert_eq!(answer("1073741824", "17").1, 47);
    assert!(answer("1073741824", "17").0.starts_with("10 BadHead ci1 "));
    let (cause, len) = answer("/rpc/rpcproxy.dll", "/rpc/other");
    assert!(cause.ends_with(" Path") && len == 45);
    assert_eq!(answer("/rpc/rpcproxy.dll", "/RPC/RpcProxy.DLL").0, "Opening");
    let mut proxy = asked_in_proxy();
    proxy.broken(is(1));
    assert_eq!(
        drawn(&mut proxy, ci()),
        b"HTTP/1.1 503 RPC Error: 6ba\r\nContent-Length: 0\r\n\r\n"
    );
    assert!(proxy.finished(ci()));
}

fn shown(text: &[u8]) -> Result<String, u64> {
    let packets = Packets::read(text)?;
    let mut sink = Vec::new();
    let mut report = Report::new(&mut sink);
    packets.show(&mut report);
    report.end().unwrap();
    Ok(String::from_utf8(sink).unwrap())
}

/// The line is told so, in digits of either case.
fn shows(line: &str, want: &str) {
    for line in [line.to_string(), line.to_uppercase()] {
        assert_eq!(shown(line.as_bytes()), Ok(format!("{want}\n")));
    }
}

/// An RTS packet with this many commands, which are those of `body`.
fn rts_hex(flags: u16, count: u16, body: &str) -> String {
    let [len, flags, count] = [20 + body.len() as u16 / 2, flags, count].map(u16::swap_bytes);
    format!("0500140310000000{len:04x}000000000000{flags:04x}{count:04x}{body}")
}

#[test]
fn rts_packets_are_shown() {
    let id = "00112233445566778899aabbccddeeff";
    let id_text = "00112233-4455-6677-8899-aabbccddeeff";
    let pad = "0102030405060708090a0b0c";
    let cases = [
        ("0000000000000100", "ReceiveWindowSize 65536"),
        (
            &format!("010000000a000000ffffffff{id}"),
            &format!("FlowControlAck 10 4294967295 {id_text}"),
        ),
        ("02000000c0d40100", "ConnectionTimeout 120000"),
        (&format!("03000000{id}"), &format!("Cookie {id_text}")),
        ("0400000000000040", "ChannelLifetime 1073741824"),
        ("05000000e0930400", "ClientKeepalive 300000"),
        ("0600000001000000", "Version 1"),
        ("07000000", "Empty"),
        ("0800000000000000", "Padding -"),
        ("0800000003000000c0ffee", "Padding c0ffee"),
        ("09000000", "NegativeANCE"),
        ("0a000000", "ANCE"),
        (&format!("0b000000000000007f000001{pad}"), &format!("ClientAddress 0 7f000001 {pad}")),
        (&format!("0b00000001000000{id}{pad}"), &format!("ClientAddress 1 {id} {pad}")),
        (&format!("0c000000{id}"), &format!("AssociationGroupId {id_text}")),
        ("0d00000003000000", "Destination 3"),
        ("0e00000000000000", "PingTrafficSentNotify 0"),
    ];
    for (body, text) in cases {
        shows(&rts_hex(0x7f, 1, body), &format!("rts 007f {text}"));
    }
    let (bodies, texts): (Vec<&str>, Vec<&str>) = cases.into_iter().unzip();
    let all = rts_hex(0x02, cases.len() as u16, &bodies.concat());
    shows(&all, &format!("rts 0002 {}", texts.join(" ")));
    shows(&rts_hex(0, 0, ""), "rts 0000");
}

#[test]
fn rts_faults_are_shown() {
    shows(&rts_hex(0, 0, "")[..32], "fault CutShort 16");
    shows(&rts_hex(0, 0, "").replacen("05", "06", 1), "fault BadHeader 0");
    shows(&format!("{}00", rts_hex(0, 0, "")), "fault BadLength 8");
    shows(&rts_hex(0x80, 0, ""), "fault BadFlags 16");
    for (count, body, want) in [
        (1, "", "CutShort 20"),
        (2, "07000000", "CutShort 24"),
        (2, "07000000080000000400000000", "CutShort 24"),
        (1, "0f000000", "BadType 20"),
        (1, "0d00000004000000", "BadType 24"),
        (1, "0b00000002000000", "BadAddressType 24"),
        (1, "0800000000000100", "BadCount 24"),
        (1, "0700000007000000", "Left 24"),
    ] {
        shows(&rts_hex(0, count, body), &format!("fault {want}"));
    }
}

#[test]
fn other_pdus_are_shown() {
    for (line, want) in [
        ("0500000300000000001400000000000101020304", "rpc 0 20 1"),
        ("050102031000000010000000ffffffff", "rpc 2 16 4294967295"),
        ("05", "fault Cut 1"),
        ("050014", "fault Cut 3"),
        ("04000003100000001000000000000000", "fault Version 4"),
        ("05020003100000001000000000000000", "fault Minor 2"),
        ("05000003200000001000000000000000", "fault ByteOrder 32"),
        ("05000003100000000f00000000000000", "fault TooShort 15"),
        ("05000003000000002001000000000000", "fault TooLong 8193"),
        ("0500000310000000110000000000000000ff", "fault Length 17 18"),
    ] {
        shows(line, want);
    }
}

#[test]
fn texts_are_lines_of_hex() {
    assert_eq!(shown(b""), Ok(String::new()));
    assert_eq!(shown(b"05\n0500"), Ok("fault Cut 1\nfault Cut 2\n".to_string()));
    assert_eq!(shown(b"05\n0500\n"), shown(b"05\n0500"));
    for bad in ["", "0", "050", "05 ", "0x05", "05\r"] {
        assert_eq!(shown(format!("05\n{bad}\n05\n").as_bytes()), Err(2));
    }
    let zeros = |digits| shown(&vec![b'0'; digits]);
    assert_eq!(zeros(2 * 65_535), Ok("fault Version 0\n".to_string()));
    assert_eq!(zeros(2 * 65_536), Err(1));
}

#[test]
fn digits_are_told_at_each_place() {
    for byte in 0..=u8::MAX {
        for place in 0..80 {
            let mut text = [b'0'; 80];
            text[place] = byte;
            assert_eq!(crate::hex::is_hex(&text), byte.is_ascii_hexdigit());
        }
    }
    let bytes: Vec<u8> = (0..=u8::MAX).collect();
    let text: String = bytes.iter().map(|byte| format!("{byte:02x}")).collect();
    for start in 0..=bytes.len() {
        let mut written = Vec::new();
        crate::hex::write(&mut written, &bytes[start..]);
        assert_eq!(written, &text.as_bytes()[2 * start..]);
        assert_eq!(hex(&text[2 * start..]), &bytes[start..]);
        assert_eq!(hex(&text[2 * start..].to_uppercase()), &bytes[start..]);
    }
}

#[test]
fn lines_end_anywhere() {
    for len in 0..100 {
        let line = vec![b'x'; len];
        let lines = |text: &[u8]| lines_of(text).map(<[u8]>::to_vec).collect::<Vec<_>>();
        assert_eq!(lines(&line).concat(), line);
        assert_eq!(lines(&[&line, &b"\n"[..]].concat()), [&line[..]]);
        assert_eq!(lines(&[&line, &b"\n\n"[..], &line].concat())[..2], [&line[..], &[]]);
    }
}

#[test]
fn numbers_are_decimal() {
    for number in (0..1_200).chain([9_999, 10_000, 4_294_967_295, u64::MAX]) {
        let mut text = Vec::new();
        write_number(&mut text, number);
        assert_eq!(text, number.to_string().as_bytes());
    }
}
