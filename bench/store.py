"""What the benchmarks put into a store: objects by their names, and the texts of thunks."""
import base64
import hashlib


def keep(data):
    """Writes an object, and gives its name."""
    letter = 'T' if data.startswith(b'gg-thunk ') else 'V'
    digest = base64.urlsafe_b64encode(hashlib.sha256(data).digest()).decode().rstrip('=')
    name = '%s%s%08x' % (letter, digest, len(data))
    with open('.gg/objects/' + name, 'wb') as file:
        file.write(data)
    return name


def thunk(card, args, inputs, output):
    """Writes a thunk of a card, its inputs pairs of a path and a reference, and gives a reference to its output."""
    lines = ['gg-thunk 1', 'f ' + card]
    lines += ['a %d:%s' % (len(arg), arg) for arg in args]
    lines += ['i %d:%s %s' % (len(path), path, ref) for path, ref in sorted(inputs)]
    lines += ['o %d:%s' % (len(output), output), 'end', '']
    return keep('\n'.join(lines).encode()) + '#0'
