//! Message heads (RFC 9112, MS-RPCH 2.1.2): those that the roles write, and how a head is judged.

pub const GREATEST_HEAD: usize = 16_384;
const GREATEST_FIELDS: usize = 64;
const GREATEST_HOST: usize = 255;
/// What a response's length may be above a channel's lifetime.
pub const ABOVE_LIFETIME: u32 = 65_536;
const GREATEST_RESPONSE: u64 = 2_147_549_184;
pub const OUT_LENGTH: u32 = 76;
pub const OUT_SUCCESSOR_LENGTH: u32 = 120;

#[derive(Clone, Copy, PartialEq, Eq, Debug)]
pub enum HttpFault {
    TooLong,
    Syntax,
    Method,
    Path,
    Target,
    Length,
}

/// An echo request has a length of at most 16.
pub struct Request {
    pub length: u32,
    pub echo: bool,
}

pub struct Response {
    pub status: u16,
    pub length: u64,
}

pub fn write_in_request(out: &mut Vec<u8>, lifetime: u32) {
    write_request(out, "RPC_IN_DATA", lifetime);
}

pub fn write_out_request(out: &mut Vec<u8>, length: u32) {
    write_request(out, "RPC_OUT_DATA", length);
}

fn write_request(out: &mut Vec<u8>, method: &str, length: u32) {
    let head = format!(
        "{method} /rpc/rpcproxy.dll?server:593 HTTP/1.1\r\nAccept: application/rpc\r\n\
         User-Agent: MSRPC\r\nHost: proxy\r\nContent-Length: {length}\r\n\
         Connection: Keep-Alive\r\nCache-Control: no-cache\r\n\
         Pragma: no-cache\r\n\r\n"
    );
    out.extend_from_slice(head.as_bytes());
}

pub fn write_response(out: &mut Vec<u8>, length: u64) {
    let head = format!(
        "HTTP/1.1 200 Success\r\nContent-Type: application/rpc\r\nContent-Length: {length}\r\n\r\n"
    );
    out.extend_from_slice(head.as_bytes());
}

pub fn write_refusal(out: &mut Vec<u8>, status: &str) {
    out.extend_from_slice(format!("HTTP/1.1 {status}\r\nContent-Length: 0\r\n\r\n").as_bytes());
}

/// The status line's text of the refusal that answers a fault.
pub fn refusal_of(fault: HttpFault) -> &'static str {
    match fault {
        HttpFault::Path => "404 Not Found",
        _ => "400 Bad Request",
    }
}

pub const UNAVAILABLE: &str = "503 RPC Error: 6ba";

/// The first line and the fields of a head that ends with its blank line.
struct Head<'a> {
    first: &'a [u8],
    /// The values of Content-Length.
    lengths: Vec<&'a [u8]>,
}

fn is_token(byte: u8) -> bool {
    byte.is_ascii_alphanumeric() || b"!#$%&'*+-.^_`|~".contains(&byte)
}

fn split(head: &[u8]) -> Option<Head<'_>> {
    let mut lines = head[..head.len() - 4]
        .split(|&byte| byte == b'\n')
        .map(|line| line.strip_suffix(b"\r").unwrap_or(line));
    let first = lines.next()?;
    let mut lengths = Vec::new();
    let mut count = 0;
    for line in lines {
        count += 1;
        let colon = line.iter().position(|&byte| byte == b':')?;
        let (name, value) = (&line[..colon], &line[colon + 1..]);
        let clean = |byte: &u8| *byte == b'\t' || (*byte >= b' ' && *byte != 0x7f);
        if name.is_empty() || !name.iter().all(|&byte| is_token(byte)) || !value.iter().all(clean) {
            return None;
        }
        if name.eq_ignore_ascii_case(b"content-length") {
            lengths.push(value.trim_ascii());
        }
    }
    (count <= GREATEST_FIELDS).then_some(Head { first, lengths })
}

/// The one length of 1 to 10 digits that stands there.
fn length_of(lengths: &[&[u8]]) -> Option<u64> {
    let [digits] = lengths else { return None };
    if digits.is_empty() || digits.len() > 10 || !digits.iter().all(u8::is_ascii_digit) {
        return None;
    }
    std::str::from_utf8(digits).ok()?.parse().ok()
}

fn is_version(text: &[u8]) -> bool {
    text == b"HTTP/1.1" || text == b"HTTP/1.0"
}

/// Whether this is host, colon and port.
fn is_target(text: &[u8]) -> bool {
    let Some(colon) = text.iter().rposition(|&byte| byte == b':') else { return false };
    let (host, port) = (&text[..colon], &text[colon + 1..]);
    let is_host = |byte: &u8| byte.is_ascii_alphanumeric() || b"-._@".contains(byte);
    if host.is_empty() || host.len() > GREATEST_HOST || !host.iter().all(is_host) {
        return false;
    }
    let digits = port.iter().all(u8::is_ascii_digit) && !port.starts_with(b"0");
    let number = std::str::from_utf8(port).ok().and_then(|port| port.parse::<u16>().ok());
    digits && number.is_some()
}

/// Judges a request that ends with its first blank line.
pub fn read_request(bytes: &[u8], inbound: bool) -> Result<Request, HttpFault> {
    let head = split(bytes).ok_or(HttpFault::Syntax)?;
    let words: Vec<&[u8]> = head.first.split(|&byte| byte == b' ').collect();
    let &[method, target, version] = &words[..] else { return Err(HttpFault::Syntax) };
    let is_line = !method.is_empty() && method.iter().all(|&byte| is_token(byte));
    if !is_line
        || target.is_empty()
        || !target.iter().all(|byte| (0x21..0x7f).contains(byte))
        || !is_version(version)
    {
        return Err(HttpFault::Syntax);
    }
    let wanted: &[u8] = if inbound { b"RPC_IN_DATA" } else { b"RPC_OUT_DATA" };
    if method != wanted {
        return Err(HttpFault::Method);
    }
    let mark = target.iter().position(|&byte| byte == b'?');
    let path = &target[..mark.unwrap_or(target.len())];
    let paths: [&[u8]; 2] = [b"/rpc/rpcproxy.dll", b"/rpcwithcert/rpcproxy.dll"];
    if !paths.iter().any(|taken| path.eq_ignore_ascii_case(taken)) {
        return Err(HttpFault::Path);
    }
    if !mark.is_some_and(|mark| is_target(&target[mark + 1..])) {
        return Err(HttpFault::Target);
    }
    let length = length_of(&head.lengths).ok_or(HttpFault::Length)?;
    let echo = length <= 16;
    let fits = match inbound {
        true => (131_072..=2_147_483_648).contains(&length),
        false => length == u64::from(OUT_LENGTH) || length == u64::from(OUT_SUCCESSOR_LENGTH),
    };
    if !echo && !fits {
        return Err(HttpFault::Length);
    }
    Ok(Request { length: length as u32, echo })
}

/// Judges a response that ends with its first blank line.
pub fn read_response(bytes: &[u8]) -> Result<Response, HttpFault> {
    let head = split(bytes).ok_or(HttpFault::Syntax)?;
    let (version, rest) = head.first.split_at_checked(8).ok_or(HttpFault::Syntax)?;
    let status = match rest {
        &[b' ', a, b, c] | &[b' ', a, b, c, b' ', ..]
            if [a, b, c].iter().all(u8::is_ascii_digit) =>
        {
            u16::from(a - b'0') * 100 + u16::from(b - b'0') * 10 + u16::from(c - b'0')
        }
        _ => return Err(HttpFault::Syntax),
    };
    if !is_version(version) {
        return Err(HttpFault::Syntax);
    }
    let length = match length_of(&head.lengths) {
        Some(length) if length <= GREATEST_RESPONSE => length,
        None if status != 200 && head.lengths.is_empty() => 0,
        _ => return Err(HttpFault::Length),
    };
    Ok(Response { status, length })
}
