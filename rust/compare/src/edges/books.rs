//! Edges of questions 1 to 5. A sound book without a sheet is refused by question 6.

use super::{each, with, Edge};
use generate::by_hand::{book_a, book_i, hex};

/// Question 6's number, for a book that passes all questions before it.
const SOUND: u8 = 6;

pub fn edges() -> Vec<Edge> {
    let mut edges = question_1();
    edges.extend(lengths());
    edges.extend(counts());
    edges.extend(question_3());
    edges.extend(question_4());
    edges.extend(other_bids());
    edges.extend(numbers_of_bids());
    edges.extend(question_5());
    edges
}

fn question_1() -> Vec<Edge> {
    let edge = |number, bytes: &[u8]| Edge::new("edge of 1", number, bytes.to_vec());
    vec![
        edge(1, &[]),
        edge(1, &[1]),
        edge(1, &[1, 0]),
        edge(2, &[1, 0, 3]),
        edge(1, &with(&book_a(), 0, &[0])),
        edge(1, &with(&book_a(), 0, &[2])),
        edge(1, &with(&book_a(), 0, &[255])),
    ]
}

/// The length, and the counts inside it. In A's book K stands at 3, n at 7 and m at 11.
fn lengths() -> Vec<Edge> {
    let book = book_a();
    let edge = |number, bytes: &[u8]| Edge::new("edge of 2, length", number, bytes.to_vec());
    let mut edges = vec![
        edge(SOUND, &book),
        edge(2, &book[..29]),
        edge(SOUND, &[&book[..], &[0]].concat()),
        edge(2, &[&with(&book, 1, &[0, 31])[..], &[0]].concat()),
    ];
    for length in [0, 3, 4, 7, 8, 11, 12, 29, 31, 255] {
        edges.push(edge(2, &with(&book, 1, &[0, length])));
    }
    edges.push(edge(2, &with(&book, 1, &[1, 30])));
    edges.push(edge(2, &with(&book, 1, &[255, 255])));
    edges
}

/// A book without bids: K kinds of supply 1 and reserve 0, and n clients.
fn bare(kinds: u8, clients: u8) -> Vec<u8> {
    let mut body = vec![kinds];
    for _ in 0..kinds {
        body.extend([1, 0, 0]);
    }
    body.push(clients);
    body.extend(vec![0; clients.into()]);
    body.push(0);
    framed(body)
}

/// Version 1 and the length in front.
fn framed(body: Vec<u8>) -> Vec<u8> {
    let length = (body.len() + 3) as u16;
    [vec![1], length.to_be_bytes().to_vec(), body].concat()
}

/// A book of one kind with supply 9 and reserve 0, n clients, and a bid of one hour for 7 of each
/// client in the list.
pub fn book_of(n: u8, clients: &[u8]) -> Vec<u8> {
    let mut body = vec![1, 9, 0, 0, n];
    body.extend(vec![0; n.into()]);
    body.push(clients.len() as u8);
    for &client in clients {
        body.extend([client, 1, 0, 0, 0, 7]);
    }
    framed(body)
}

/// Clients 1 to 6 in turn, as many as asked for.
fn in_turn(count: u8) -> Vec<u8> {
    (0..count).map(|i| i % 6 + 1).collect()
}

fn counts() -> Vec<Edge> {
    let way = "edge of 2, counts";
    let kinds = [(0, 2), (1, SOUND), (4, SOUND), (5, 2), (255, 2)];
    let clients = [(0, 2), (1, SOUND), (6, SOUND), (7, 2), (255, 2)];
    let bids = [(0, SOUND), (1, SOUND), (47, SOUND), (48, SOUND), (49, 2)];
    let mut edges = each(way, &kinds, |kinds| bare(kinds, 1));
    edges.extend(each(way, &clients, |clients| bare(1, clients)));
    edges.extend(each(way, &bids, |bids| book_of(6, &in_turn(bids))));
    edges
}

fn question_3() -> Vec<Edge> {
    let way = "edge of 3";
    let supplies = [(0, SOUND), (200, SOUND), (201, 3), (255, 3)];
    let reserves = [(0, SOUND), (10_000, SOUND), (10_001, 3), (65_535, 3)];
    let statuses = [(0, SOUND), (1, SOUND), (2, 3), (255, 3)];
    let mut edges = each(way, &supplies, |supply| with(&book_a(), 4, &[supply]));
    edges.extend(each(way, &reserves, |reserve| {
        with(&book_i(), 5, &u16::to_be_bytes(reserve))
    }));
    for client in 0..3 {
        let of_client = |status| with(&book_a(), 8 + client, &[status]);
        edges.extend(each(way, &statuses, of_client));
    }
    // The last supply and the last reserve of four, the first status of six and the last.
    let book = bare(4, 6);
    edges.push(Edge::new(way, 3, with(&book, 13, &[201, 0, 0])));
    edges.push(Edge::new(way, 3, with(&book, 13, &[0, 39, 17])));
    edges.push(Edge::new(way, 3, with(&book, 17, &[2])));
    edges.push(Edge::new(way, 3, with(&book, 22, &[2])));
    edges
}

/// The first bid of A's book stands at 12: its client, its hours at 13, its amount at 14.
fn question_4() -> Vec<Edge> {
    let way = "edge of 4";
    let book = book_a();
    let clients = [(0, 4), (1, SOUND), (3, SOUND), (4, 4), (255, 4)];
    let amounts = [(0, 4), (10, SOUND), (1_000_000, SOUND), (1_000_001, 4)];
    let large = [(u32::MAX, 4), (1 << 31, 4), (1 << 24, 4)];
    // Hours: none, one, more than the supply, as many as the amount pays for, and one more.
    let hours = [(0, 4), (1, SOUND), (3, SOUND), (6, SOUND), (7, 5)];
    let amount = |amount: u32| with(&book, 14, &amount.to_be_bytes());
    let mut edges = each(way, &clients, |client| with(&book, 12, &[client]));
    edges.extend(each(way, &amounts, amount));
    edges.extend(each(way, &large, amount));
    edges.extend(each(way, &hours, |hours| with(&book, 13, &[hours])));
    edges
}

/// A bid of a withdrawn client, the last bid, and amount 1, the least, with no reserve.
fn other_bids() -> Vec<Edge> {
    let edge = |number, bytes| Edge::new("edge of 4", number, bytes);
    let book = book_a();
    let withdrawn = with(&book, 8, &[1]);
    vec![
        edge(4, with(&withdrawn, 14, &[255; 4])),
        edge(4, with(&withdrawn, 13, &[0])),
        edge(4, with(&book, 24, &[4])),
        edge(4, with(&book, 25, &[0])),
        edge(4, with(&book, 26, &[0; 4])),
        edge(SOUND, with(&book_of(2, &[1]), 13, &[0, 0, 0, 1])),
        edge(4, with(&book_of(2, &[1]), 13, &[0, 0, 0, 0])),
    ]
}

/// Eight bids of a client and nine, standing or withdrawn.
fn numbers_of_bids() -> Vec<Edge> {
    let edge = |number, bytes| Edge::new("edge of 4, eight bids", number, bytes);
    let eight_each = [[1; 8], [2; 8]].concat();
    vec![
        edge(SOUND, book_of(2, &[1; 8])),
        edge(4, book_of(2, &[1; 9])),
        edge(SOUND, book_of(2, &[2; 8])),
        edge(4, book_of(2, &[2; 9])),
        edge(SOUND, book_of(2, &eight_each)),
        edge(4, book_of(2, &[&eight_each[..], &[2]].concat())),
        edge(4, with(&book_of(2, &[1; 9]), 8, &[1])),
        edge(4, book_of(6, &[6; 9])),
        edge(4, book_of(1, &[1; 48])),
    ]
}

fn question_5() -> Vec<Edge> {
    let book = book_a();
    let edge = |number, bytes| Edge::new("edge of 5", number, bytes);
    // Two hours of client 3, withdrawn.
    let withdrawn = with(&book, 10, &[1]);
    // 255 hours of 10,000 cost more than any amount; 100 of them just the largest.
    let dear = with(&book_of(1, &[1]), 5, &hex("2710"));
    let most = |hours| with(&with(&dear, 11, &[hours]), 12, &1_000_000_u32.to_be_bytes());
    vec![
        edge(SOUND, with(&book, 14, &[0, 0, 0, 10])),
        edge(5, with(&book, 14, &[0, 0, 0, 9])),
        edge(SOUND, with(&withdrawn, 26, &[0, 0, 0, 20])),
        edge(5, with(&withdrawn, 26, &[0, 0, 0, 19])),
        edge(SOUND, most(100)),
        edge(5, most(101)),
        edge(5, most(255)),
        // An amount in order with too many bids of a client: 4 comes before 5.
        edge(4, with(&book_of(2, &[1; 9]), 5, &hex("2710"))),
    ]
}
