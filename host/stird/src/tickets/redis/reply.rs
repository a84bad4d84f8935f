//! What is said to a Redis and what it answers, in RESP (the serialization protocol of Redis,
//! version 2).
use std::io;
use tokio::io::{AsyncBufRead, AsyncBufReadExt, AsyncReadExt};

/// A line of an answer is no longer than this, nor is a text, nor has a list more items.
const LINE: usize = 1_024;
const TEXT: usize = 64 * 1_024;
const ITEMS: usize = 16;

/// An answer.
#[derive(Clone, Debug, PartialEq, Eq)]
pub enum Reply {
    /// A word, such as `OK`.
    Word(Vec<u8>),
    /// That it failed, and why.
    Error(Vec<u8>),
    Number(i64),
    Text(Vec<u8>),
    Nothing,
    List(Vec<Reply>),
}

/// What is said: a list of texts.
pub fn said(words: &[&[u8]]) -> Vec<u8> {
    let mut text = format!("*{}\r\n", words.len()).into_bytes();
    for word in words {
        text.extend_from_slice(format!("${}\r\n", word.len()).as_bytes());
        text.extend_from_slice(word);
        text.extend_from_slice(b"\r\n");
    }
    text
}

/// Reads one answer.
pub async fn read(from: &mut (impl AsyncBufRead + Unpin)) -> io::Result<Reply> {
    match item(from).await? {
        Item::Reply(reply) => Ok(reply),
        Item::List(count) => {
            let mut items = Vec::with_capacity(count);
            for _ in 0..count {
                match item(from).await? {
                    Item::Reply(reply) => items.push(reply),
                    Item::List(_) => return Err(strange(b"a list in a list")),
                }
            }
            Ok(Reply::List(items))
        }
    }
}

/// An answer, or the head of a list of answers.
enum Item {
    Reply(Reply),
    List(usize),
}

async fn item(from: &mut (impl AsyncBufRead + Unpin)) -> io::Result<Item> {
    let line = line(from).await?;
    let reply = match line.split_first() {
        Some((b'+', word)) => Reply::Word(word.into()),
        Some((b'-', why)) => Reply::Error(why.into()),
        Some((b':', number)) => Reply::Number(parsed(number).ok_or_else(|| strange(&line))?),
        Some((b'$' | b'*', b"-1")) | Some((b'_', b"")) => Reply::Nothing,
        Some((b'$', size)) => Reply::Text(text(from, bounded(size, TEXT, &line)?).await?),
        Some((b'*', count)) => return Ok(Item::List(bounded(count, ITEMS, &line)?)),
        _ => return Err(strange(&line)),
    };
    Ok(Item::Reply(reply))
}

/// A line without its end.
async fn line(from: &mut (impl AsyncBufRead + Unpin)) -> io::Result<Vec<u8>> {
    let mut line = Vec::new();
    from.take(LINE as u64).read_until(b'\n', &mut line).await?;
    match line.strip_suffix(b"\r\n") {
        Some(whole) => Ok(whole.into()),
        None if line.is_empty() => Err(io::ErrorKind::UnexpectedEof.into()),
        None => Err(strange(&line)),
    }
}

/// A text of this many bytes, and the end of its line.
async fn text(from: &mut (impl AsyncBufRead + Unpin), size: usize) -> io::Result<Vec<u8>> {
    let mut text = vec![0; size + 2];
    from.read_exact(&mut text).await?;
    match text.strip_suffix(b"\r\n") {
        Some(whole) => Ok(whole.into()),
        None => Err(strange(b"a text longer than was said")),
    }
}

fn parsed<T: std::str::FromStr>(digits: &[u8]) -> Option<T> {
    std::str::from_utf8(digits).ok()?.parse().ok()
}

fn bounded(digits: &[u8], most: usize, line: &[u8]) -> io::Result<usize> {
    parsed(digits).filter(|size| *size <= most).ok_or_else(|| strange(line))
}

fn strange(line: &[u8]) -> io::Error {
    io::Error::new(
        io::ErrorKind::InvalidData,
        format!("it said \"{}\", which is no answer of a Redis", shown(line)),
    )
}

/// What a peer said, in ASCII and not too long.
pub fn shown(text: &[u8]) -> String {
    text.get(..200).unwrap_or(text).escape_ascii().to_string()
}

#[cfg(test)]
mod tests {
    use super::*;

    async fn answered(bytes: &[u8]) -> io::Result<Reply> {
        read(&mut tokio::io::BufReader::new(bytes)).await
    }

    #[tokio::test]
    async fn answers_of_a_redis_are_read() {
        let time = Reply::List(vec![Reply::Text(b"12".to_vec()), Reply::Number(-3)]);
        for (bytes, reply) in [
            (&b"+OK\r\n"[..], Reply::Word(b"OK".to_vec())),
            (b"-ERR no\r\n", Reply::Error(b"ERR no".to_vec())),
            (b":7\r\n", Reply::Number(7)),
            (b"$-1\r\n", Reply::Nothing),
            (b"_\r\n", Reply::Nothing),
            (b"*-1\r\n", Reply::Nothing),
            (b"$0\r\n\r\n", Reply::Text(Vec::new())),
            (b"$4\r\na\r\nb\r\n", Reply::Text(b"a\r\nb".to_vec())),
            (b"*2\r\n$2\r\n12\r\n:-3\r\n", time),
            (b"*0\r\n", Reply::List(Vec::new())),
        ] {
            assert_eq!(answered(bytes).await.unwrap(), reply, "{}", shown(bytes));
        }
    }

    #[tokio::test]
    async fn whatever_else_a_peer_says_is_an_error() {
        let endless = [b'+'; 5_000];
        let others: [&[u8]; 19] = [
            b"",
            b"\r\n",
            b"+OK",
            b"+OK\n",
            b"\xc3\xa9\r\n",
            b"\xff\xfe\r\n",
            b"$\xc3\xa9\r\n",
            b"$65537\r\n",
            b"$18446744073709551615\r\n",
            b"$-2\r\n",
            b"$5\r\nabc",
            b"$2\r\nabcd\r\n",
            b":x\r\n",
            b"*17\r\n",
            b"*1\r\n*1\r\n+OK\r\n",
            b"*2\r\n+OK\r\n",
            b"HTTP/1.1 400 Bad Request\r\n",
            b"\0\r\n",
            &endless,
        ];
        for bytes in others {
            assert!(answered(bytes).await.is_err(), "{}", shown(bytes));
        }
    }

    #[tokio::test]
    async fn whatever_bytes_come_the_reader_ends() {
        for seed in 1..20_000_u64 {
            let mut state = seed.wrapping_mul(0x9e37_79b9_7f4a_7c15);
            let mut random = |bound: usize| {
                state = state.wrapping_mul(6_364_136_223_846_793_005).wrapping_add(1);
                (state >> 33) as usize % bound
            };
            let pieces = [
                &b"+"[..],
                b"-",
                b":",
                b"$",
                b"*",
                b"_",
                b"-1",
                b"0",
                b"1",
                b"2",
                b"17",
                b"\r\n",
                b"\r",
                b"\n",
                b"ab",
                b"\xc3\xa9",
                b"\xff",
                b"99999999999999999999",
                b"OK\r\n",
            ];
            let bytes: Vec<u8> =
                (0..random(30)).flat_map(|_| pieces[random(pieces.len())]).copied().collect();
            let reply = answered(&bytes);
            let ended = tokio::time::timeout(std::time::Duration::from_secs(5), reply).await;
            assert!(ended.is_ok(), "seed {seed}: {}", shown(&bytes));
        }
    }

    #[test]
    fn what_is_said_has_the_length_of_each_word() {
        assert_eq!(said(&[b"GET", b"a\r\nb"]), b"*2\r\n$3\r\nGET\r\n$4\r\na\r\nb\r\n");
    }
}
