use lekhyundo::{
    Kind, Lines, Node, Operator, Place, Reader, Reason, Refusal, Row, SIZE, Token, Tokens, Tree, token_list, tokens,
};

const FILTER: &str = "\
// Routes of customers.
filter customers(route: Route, peer: Peer) {
    let limit: u8 = 24;
    if route.prefix.len() > limit || route.prefix.covers(10.0.0.0) {
        reject \"prefix\"
    }
    match route.origin {
        Some(asn) if asn == AS64496 => { accept route.with_pref(100) },
        _ => log(f\"peer {peer.asn} {(1 + 2) * 3}\"),
    }
}
const A: u8 = 1;
";

/// Children by the rows alone: back from the parent, size by size.
fn children_of(rows: &[Row], index: usize) -> Vec<usize> {
    let mut end = index;
    let mut found: Vec<usize> = (0..rows[index][3])
        .map(|_| {
            let child = end - 1;
            end -= rows[child][SIZE] as usize;
            child
        })
        .collect();
    found.reverse();
    found
}

fn indexes<'a>(nodes: impl Iterator<Item = Node<'a>>) -> Vec<usize> {
    nodes.map(|node| node.index()).collect()
}

#[test]
fn children_and_parents_are_those_of_the_rows() {
    let wide = format!("fn f() {{ {} }}", "a; ".repeat(700));
    let many = "import a;".repeat(1_000);
    let deep = format!("const A: u8 = 1{};", "+1".repeat(2_000));
    let mut reader = Reader::default();
    for source in [FILTER, "", "import a;", &wide, &many, &deep] {
        let tree = reader.tree(source.as_bytes()).unwrap();
        let parents = tree.parents();
        let mut seen = 1;
        for node in tree.nodes() {
            let expected = children_of(tree.rows(), node.index());
            assert_eq!(indexes(node.children()), expected);
            assert_eq!(node.children().len(), expected.len());
            let back: Vec<usize> = expected.iter().rev().copied().collect();
            assert_eq!(indexes(node.children().rev()), back);
            for child in node.children() {
                seen += 1;
                assert_eq!(child.parent(), Some(node));
                assert_eq!(parents[child.index()], node.index());
            }
        }
        assert_eq!(seen, tree.rows().len());
        assert_eq!(parents[tree.root().index()], tree.root().index());
        assert_eq!(tree.root().parent(), None);
        for index in (0..tree.rows().len()).step_by(1 + tree.rows().len() / 50) {
            let node = tree.node(index).unwrap();
            let path: Vec<_> = node.path().collect();
            assert_eq!((path[0], path[path.len() - 1]), (tree.root(), node));
            assert!(path.windows(2).all(|two| parents[two[1].index()] == two[0].index()));
            assert_eq!(node.parent(), (path.len() > 1).then(|| path[path.len() - 2]));
        }
    }
}

#[test]
fn children_may_be_taken_from_both_ends() {
    let mut reader = Reader::default();
    for n in 0..40 {
        let source = "import a;".repeat(n);
        let tree = reader.tree(source.as_bytes()).unwrap();
        // Every pattern of 12 turns, left or right.
        for turns in 0..1u32 << n.min(12) {
            let mut left = indexes(tree.root().children());
            let mut children = tree.root().children();
            for turn in 0..n {
                let (got, want) = if turns >> (turn % 12) & 1 == 0 {
                    (children.next(), left.remove(0))
                } else {
                    (children.next_back(), left.pop().unwrap())
                };
                assert_eq!((got.map(|node| node.index()), children.len()), (Some(want), left.len()));
            }
            assert_eq!((children.next(), children.next_back()), (None, None));
        }
    }
}

#[test]
fn a_node_says_what_its_row_says() {
    let mut reader = Reader::default();
    let tree = reader.tree(b"const A: u8 = 300u16 - 1.5;").unwrap();
    let minus = tree.nodes().find(|node| node.kind() == Kind::Binary).unwrap();
    assert_eq!((minus.text(), minus.detail(), minus.span(), minus.size()), ("300u16 - 1.5", 10, 14..26, 3));
    let [left, right] = minus.children().collect::<Vec<_>>()[..] else { panic!("two operands") };
    assert_eq!((left.value(), left.detail(), left.is_leaf()), (300, 6, true));
    assert_eq!(right.float(), Ok(lekhyundo::Float::F64(1.5)));
    assert_eq!(left.float().unwrap_err().reason(), Some(Reason::Valueless));
    assert_eq!(tree.at(6).unwrap().name(), Some("A"));
    assert_eq!(minus.name(), None);
    assert_eq!(tree.at(13), None);
    assert_eq!(tree.at(usize::MAX), None);
    assert_eq!(tree.node(tree.rows().len()), None);
    assert_eq!(format!("{minus:?}"), "binary 14..26");
    assert_eq!(indexes(minus.subtree()), [4, 5, 6]);
    assert_eq!(indexes(tree.nodes().rev()), indexes(tree.nodes()).into_iter().rev().collect::<Vec<_>>());
}

#[test]
fn an_operator_is_that_of_its_sign() {
    let mut reader = Reader::default();
    for operator in Operator::ALL {
        let source = format!("1 {operator} 2");
        let tree = reader.expression(source.as_bytes()).unwrap();
        assert_eq!(tree.root().operator(), Some(*operator));
        assert_eq!(tree.node(0).unwrap().operator(), None);
    }
    // Its suffix is its detail, 5.
    assert_eq!(reader.expression(b"1u8").unwrap().root().operator(), None);
}

#[test]
fn the_leaf_under_each_byte_is_that_of_a_walk() {
    let mut reader = Reader::default();
    let tree = reader.tree(FILTER.as_bytes()).unwrap();
    for position in 0..=FILTER.len() {
        let walked = tree.nodes().rev().find(|node| node.is_leaf() && node.span().contains(&position));
        assert_eq!(tree.at(position), walked);
    }
}

#[test]
fn rows_of_no_tree_are_no_tree() {
    let mut reader = Reader::default();
    let tree = reader.tree(FILTER.as_bytes()).unwrap();
    let rows = tree.rows();
    assert!(Tree::new(FILTER, rows).is_some());
    assert!(Tree::new(FILTER, &[]).is_none());
    assert!(Tree::new(FILTER, &rows[..rows.len() - 1]).is_none());
    assert!(Tree::new(&FILTER[..FILTER.len() - 1], rows).is_none());
    assert!(Tree::new(&FILTER.replace("customers.", "customers\u{e9}"), rows).is_none());
    for index in 0..rows.len() {
        let changed = |number: usize, new: u64| {
            let mut other = rows.to_vec();
            other[index][number] = new;
            Tree::new(FILTER, &other).is_some()
        };
        let [kind, start, end, children, _, _, size] = rows[index];
        assert!(!changed(0, 0) && !changed(0, 48) && changed(0, kind));
        assert!(!changed(1, end + 1) && !changed(2, FILTER.len() as u64 + 1) && (start == 0 || !changed(2, start - 1)));
        assert!(!changed(3, children + 1) && !changed(3, u64::MAX) && (children == 0 || !changed(3, children - 1)));
        assert!(!changed(6, 0) && !changed(6, size + 1) && !changed(6, u64::MAX));
    }
}

#[test]
fn a_reader_keeps_nothing_of_the_source_before() {
    let mut reader = Reader::default();
    let sources = [FILTER.repeat(50), "import a;".to_string(), String::new(), FILTER.to_string(), "1".to_string()];
    for source in &sources {
        let alone = Reader::default().tree(source.as_bytes()).map(|tree| tree.rows().to_vec());
        assert_eq!(reader.tree(source.as_bytes()).map(|tree| tree.rows().to_vec()), alone);
    }
    let mut small = Reader::with_room(1);
    assert_eq!(small.tree(b"import a;").unwrap_err().needed, 4);
    assert_eq!(small.tree(b"").unwrap().rows().len(), 1);
    assert_eq!(Reader::with_room(0).tree(b"").unwrap_err().needed, 1);
}

#[test]
fn tokens_one_by_one_are_those_of_the_list() {
    let source = FILTER.replace("f\"peer {peer.asn} {(1 + 2) * 3}\"", "1");
    let one_by_one: Result<Vec<Token>, Refusal> = tokens(source.as_bytes()).collect();
    assert_eq!(one_by_one, token_list(source.as_bytes()));
    assert!(one_by_one.unwrap().iter().all(|token| !token.text(source.as_bytes()).is_empty()));

    // Up to the f-string, which is the last item.
    let taken: Vec<_> = tokens(FILTER.as_bytes()).collect();
    let refusal = token_list(FILTER.as_bytes()).unwrap_err();
    assert_eq!(taken.last(), Some(&Err(refusal)));
    assert!(taken[..taken.len() - 1].iter().all(Result::is_ok));
    assert_eq!(refusal.reason(), Some(Reason::FString));

    let mut from = Tokens::starting_at(b"a b", 1);
    assert_eq!(from.next().unwrap().unwrap().start, 2);
    assert_eq!((from.next(), from.next()), (None, None));
    assert_eq!(Tokens::starting_at(b"a", 9).next(), None);
    assert_eq!(tokens("// caf\u{e9}\na".as_bytes()).count(), 1);
}

#[test]
fn places_are_lines_and_columns_from_1() {
    let source = b"a\n\tb\n";
    let places = [(1, 1), (1, 2), (2, 1), (2, 2), (2, 3), (3, 1), (3, 1)];
    for (at, (line, column)) in places.into_iter().enumerate() {
        assert_eq!(Place::of(source, at), Place { line, column });
        assert_eq!(Lines::of(source).place(at), Place { line, column });
    }
    for at in 0..FILTER.len() + 2 {
        assert_eq!(Lines::of(FILTER.as_bytes()).place(at), Place::of(FILTER.as_bytes(), at));
    }
}

#[test]
fn a_refusal_is_an_error_that_says_why() {
    let said = |error: Box<dyn std::error::Error>| error.to_string();
    let no_room = Reader::with_room(2).expression(b"1+2").unwrap_err();
    assert_eq!(said(no_room.into()), "refused 10: no room, 3 needed");
    let early = Reader::default().tree(b"import").unwrap_err();
    assert_eq!(said(early.into()), "refused 11 at 6..6: source ends too early");
    assert_eq!(Refusal { number: 99, ..early }.meaning(), "unknown number");
}
