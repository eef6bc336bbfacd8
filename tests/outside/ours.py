"""The program of cases, given by a command: document 01's cases in, its lines out."""
import subprocess

CHECK, WRITE, READ = 0, 1, 2


def case(op, t, table, data):
    return b'CA' + bytes([op, t]) + len(table).to_bytes(2, 'big') + table + len(data).to_bytes(2, 'big') + data


def run(command, cases):
    """Answers ('ok', octets) or ('no', number, place) to cases (operation, type, table, data)."""
    out = subprocess.run(command, shell=True, check=True, input=b''.join(case(*c) for c in cases), stdout=subprocess.PIPE).stdout
    lines = out.decode().split('\n')[:-1]
    assert len(lines) == len(cases), 'the program of cases gave %d lines for %d cases' % (len(lines), len(cases))
    answers = []
    for i, line in enumerate(lines):
        w = line.split(' ')
        assert w[0] == str(i + 1), line
        if w[1] == 'ok':
            answers.append(('ok', bytes.fromhex(w[2]) if len(w) > 2 else b''))
        else:
            assert w[1] == 'no', line
            answers.append(('no', int(w[2]), int(w[3])))
    return answers
