"""Building drawing sheets: records, blocks, checks. For the generator and the cases."""


def number_bytes(value):
    return [value % 256, value // 256 % 256]


def record(kind, operation, x, y, rest):
    return bytes([kind, operation] + number_bytes(x) + number_bytes(y) + list(rest))


def with_check(body, error=0):
    # "the sum of the 255 words before it plus 7220, modulo 65,536"
    total = sum(body[0:510:2]) + 256 * sum(body[1:510:2]) + 7220 + error
    return bytes(body) + bytes(number_bytes(total % 65536))


def block_body(number, count, last, records):
    body = bytearray(510)
    body[0:4] = bytes(number_bytes(number) + [count, last])
    for index, one in enumerate(records):
        body[4 + 10 * index:14 + 10 * index] = one
    return body
