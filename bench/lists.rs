//! Index lists: nodes in an array, each of them in one of a few doubly linked lists. A module of changes.rs and of model.rs.

/// No node.
const NONE: u32 = u32::MAX;

#[derive(Clone, Copy)]
struct Node {
    back: u32,
    forward: u32,
    list: u32,
}

#[derive(Clone, Copy)]
struct Header {
    head: u32,
    tail: u32,
    size: u32,
}

/// So many lists. What names one of them becomes its number.
pub struct Lists<const COUNT: usize> {
    nodes: Box<[Node]>,
    headers: [Header; COUNT],
}

fn some_node(node: u32) -> Option<u32> {
    if node == NONE { None } else { Some(node) }
}

impl<const COUNT: usize> Lists<COUNT> {
    /// All nodes are in one list, ascending.
    pub fn new(count: u32, list: impl Into<u32>) -> Self {
        let list = list.into();
        let nodes = (0..count)
            .map(|node| Node {
                back: if node == 0 { NONE } else { node - 1 },
                forward: if node + 1 == count { NONE } else { node + 1 },
                list,
            })
            .collect();
        let mut headers = [Header { head: NONE, tail: NONE, size: 0 }; COUNT];
        headers[list as usize] = Header { head: 0, tail: count - 1, size: count };
        Lists { nodes, headers }
    }

    pub fn to_front(&mut self, node: u32, list: impl Into<u32>) {
        let to = list.into();
        if self.headers[to as usize].head == node {
            return;
        }
        let Node { back, forward, list } = self.nodes[node as usize];
        let from = &mut self.headers[list as usize];
        from.size -= 1;
        if back == NONE {
            from.head = forward;
        } else {
            self.nodes[back as usize].forward = forward;
        }
        if forward == NONE {
            from.tail = back;
        } else {
            self.nodes[forward as usize].back = back;
        }
        let header = &mut self.headers[to as usize];
        let first = header.head;
        header.head = node;
        header.size += 1;
        if first == NONE {
            header.tail = node;
        } else {
            self.nodes[first as usize].back = node;
        }
        self.nodes[node as usize] = Node { back: NONE, forward: first, list: to };
    }

    pub fn front(&self, list: impl Into<u32>) -> Option<u32> {
        some_node(self.headers[list.into() as usize].head)
    }

    pub fn back(&self, list: impl Into<u32>) -> Option<u32> {
        some_node(self.headers[list.into() as usize].tail)
    }

    pub fn after(&self, node: u32) -> Option<u32> {
        some_node(self.nodes[node as usize].forward)
    }

    pub fn len(&self, list: impl Into<u32>) -> u32 {
        self.headers[list.into() as usize].size
    }
}
