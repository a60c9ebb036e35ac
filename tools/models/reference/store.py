"""A list of 65,536 bytes that never changes.

`put` returns a new list and leaves the old one as it is; unchanged pages are
shared, so that many whole states can be kept.
"""

EMPTY = ((bytes(256),) * 16,) * 16


def get(store, index):
    return store[index >> 12][(index >> 8) & 15][index & 255]


def put(store, index, byte):
    top, mid, low = index >> 12, (index >> 8) & 15, index & 255
    row = store[top]
    page = row[mid]
    if page[low] == byte:
        return store
    page = page[:low] + bytes((byte,)) + page[low + 1:]
    row = row[:mid] + (page,) + row[mid + 1:]
    return store[:top] + (row,) + store[top + 1:]


def whole(store):
    """All 65,536 bytes as one bytes value."""
    return b"".join(page for row in store for page in row)
