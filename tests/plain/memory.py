# The lent memory: three lists of numbers, and where each node and each cell stands in them.

WORD_LIMIT = 1 << 64
HEADER_WORDS = 2
NODE_WORDS = 47
CELL_WORDS = 2
CELL_BYTES = 256
MOST = 255

FREE, LEAF, INTERNODE = 0, 1, 2


class Memory:
    # All zero, with n nodes and c cells. Nothing is judged here: n and c may be 0 or too large.
    def __init__(self, n, c):
        self.nodes = [0] * (HEADER_WORDS + NODE_WORDS * n)
        self.cells = [0] * (CELL_WORDS * c)
        self.bytes = bytearray(CELL_BYTES * c)

    # Lent memory of any three lengths, right or wrong.
    @staticmethod
    def of(nodes, cells, data):
        memory = Memory(0, 0)
        memory.nodes, memory.cells, memory.bytes = list(nodes), list(cells), bytearray(data)
        return memory

    # A second memory with the same contents.
    def copy(self):
        return Memory.of(self.nodes, self.cells, self.bytes)

    # Whether both memories hold the same, lengths included.
    def same(self, other):
        return (self.nodes, self.cells, self.bytes) == (other.nodes, other.cells, other.bytes)

    # How many nodes the first list has room for.
    def node_count(self):
        return max(0, len(self.nodes) - HEADER_WORDS) // NODE_WORDS

    # How many cells the second list has room for.
    def cell_count(self):
        return len(self.cells) // CELL_WORDS

    # Whether the three lengths are those of 1 to 255 nodes and 1 to 255 cells.
    def right_lengths(self):
        n, c = self.node_count(), self.cell_count()
        return (1 <= n <= MOST and 1 <= c <= MOST
                and len(self.nodes) == HEADER_WORDS + NODE_WORDS * n
                and len(self.cells) == CELL_WORDS * c
                and len(self.bytes) == CELL_BYTES * c)

    # One word of a node.
    def word(self, node, index):
        return self.nodes[HEADER_WORDS + NODE_WORDS * node + index]

    # Writes one word of a node.
    def set_word(self, node, index, value):
        self.nodes[HEADER_WORDS + NODE_WORDS * node + index] = value

    # The 47 words of a node.
    def node(self, node):
        start = HEADER_WORDS + NODE_WORDS * node
        return self.nodes[start:start + NODE_WORDS]

    # Writes a whole node; words not given are zero.
    def set_node(self, node, words):
        start = HEADER_WORDS + NODE_WORDS * node
        self.nodes[start:start + NODE_WORDS] = words + [0] * (NODE_WORDS - len(words))

    # The mark of a cell: 0 if free, else the length of its key plus 1.
    def mark(self, cell):
        return self.cells[CELL_WORDS * cell]

    # The frame number of a cell.
    def frame(self, cell):
        return self.cells[CELL_WORDS * cell + 1]

    # All 256 bytes of a cell.
    def cell_bytes(self, cell):
        return bytes(self.bytes[CELL_BYTES * cell:CELL_BYTES * (cell + 1)])

    # The key of a cell in use.
    def key(self, cell):
        return self.cell_bytes(cell)[:self.mark(cell) - 1]

    # The count of entries in the header.
    def count(self):
        return self.nodes[1]

    # Writes a key and its frame number into a cell, zeros behind the key; one entry more where the cell was free.
    def set_cell(self, cell, key, frame):
        self.nodes[1] += self.mark(cell) == 0
        self.cells[CELL_WORDS * cell:CELL_WORDS * (cell + 1)] = [len(key) + 1, frame]
        self.bytes[CELL_BYTES * cell:CELL_BYTES * (cell + 1)] = key.ljust(CELL_BYTES, b"\0")

    # Makes a cell that is in use free: all zero, and one entry less.
    def zero_cell(self, cell):
        self.nodes[1] -= 1
        self.cells[CELL_WORDS * cell:CELL_WORDS * (cell + 1)] = [0, 0]
        self.bytes[CELL_BYTES * cell:CELL_BYTES * (cell + 1)] = bytes(CELL_BYTES)

    # The numbers of the free nodes, lowest first.
    def free_nodes(self):
        return [node for node in range(self.node_count()) if self.word(node, 0) == FREE]

    # The numbers of the free cells, lowest first.
    def free_cells(self):
        return [cell for cell in range(self.cell_count()) if self.mark(cell) == 0]


# Tokens for a list of numbers, as hex of the width asked; zK stands for K zeros in a row, K at least 2.
def tokens_of(numbers, width):
    tokens, zeros = [], 0
    for number in list(numbers) + [None]:
        if number == 0:
            zeros += 1
            continue
        if zeros:
            tokens.append("z%d" % zeros if zeros > 1 else "0" * width)
        zeros = 0
        if number is not None:
            tokens.append("%0*x" % (width, number))
    return tokens


# The numbers that a list of tokens stands for.
def numbers_of(tokens):
    numbers = []
    for token in tokens:
        numbers += [0] * int(token[1:]) if token[0] == "z" else [int(token, 16)]
    return numbers


# Plain text: one line for each of the three lists. Any lengths can be written.
def dump(memory):
    return "".join(" ".join([name] + tokens_of(numbers, width)) + "\n" for name, numbers, width in (
        ("nodes", memory.nodes, 1), ("cells", memory.cells, 1), ("bytes", memory.bytes, 2)))


# The memory that such a text stands for.
def load(text):
    lists = {fields[0]: numbers_of(fields[1:]) for fields in map(str.split, text.splitlines()) if fields}
    return Memory.of(lists["nodes"], lists["cells"], lists["bytes"])
