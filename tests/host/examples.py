#!/usr/bin/env python3
"""The examples that C programmers are shown, taken out of their pages, compiled and run.   examples.py INSTALLED

  - each `cc` line of the README and of gateway(3) as it is printed, on the program that is printed beside it (the line without
    libgatewayhost.a on one that needs no more), by pkg-config with what `make install` put into a folder
  - the worked examples of include/gateway.h and host/refusal.h, each in a function of its own, and what the header says of them
"""
import os
import pathlib
import re
import shutil
import subprocess
import sys
import tempfile

ROOT = pathlib.Path(__file__).resolve().parent.parent.parent
EXAMPLES = ROOT / 'host/examples'

ALONE = '''#include <gateway.h>
int main(void) {
    static uint32_t rows[GW_ROWS_SIZE];
    uint32_t report[GW_REPORT_SIZE];
    return gw_parse((const uint8_t *)"{a", 2, rows, GW_ROWS_SIZE, report, GW_REPORT_SIZE) == GW_REFUSE_NO_GOING ? 1 : 0;
}
'''


def run(words, **more):
    done = subprocess.run(words, stdout=subprocess.PIPE, stderr=subprocess.PIPE, check=False, **more)
    return done.returncode, done.stdout.decode(), done.stderr.decode()


# ---- lines to compile by

def of_readme():
    section = (ROOT / 'README.md').read_text().split('\n## For C programs\n')[1].split('\n## ')[0]
    blocks = re.findall(r'^```(\w+)\n(.*?)^```', section, re.S | re.M)
    program, = [block for kind, block in blocks if kind == 'c']
    return program, [line for kind, block in blocks if kind == 'sh' for line in block.splitlines()], 3


def of_man_page():
    page = (ROOT / 'host/man/gateway.3').read_text()
    program = re.search(r'^#include <gateway.h>\n.*?^}\n', page, re.S | re.M).group(0).replace('\\e', '\\')
    return program, re.findall(r'^cc .*', page, re.M), 1


def try_line(line, program, installed):
    environment = dict(os.environ, PKG_CONFIG_LIBDIR=f'{installed}/usr/lib/pkgconfig', PKG_CONFIG_SYSROOT_DIR=installed,
                       PKG_CONFIG_ALLOW_SYSTEM_CFLAGS='1', PKG_CONFIG_ALLOW_SYSTEM_LIBS='1')
    is_alone = 'libgateway.a' in line and 'libgatewayhost.a' not in line
    with tempfile.TemporaryDirectory() as room:
        os.symlink(ROOT / 'build', f'{room}/build')
        pathlib.Path(room, 'my_host.c').write_text(ALONE if is_alone else program)
        compiled = run(['sh', '-c', line], cwd=room, env=environment)
        assert compiled == (0, '', ''), (line, compiled)
        said = run([f'{room}/my_host'])
        assert said == (1, '' if is_alone else '1:20: no document can go on with this\n', ''), (line, said)


def try_lines(installed):
    count = 0
    for program, lines, due in (of_readme(), of_man_page()):
        assert len(lines) == due and all(line.startswith('cc ') for line in lines), lines
        for line in lines:
            if 'pkg-config' not in line or shutil.which('pkg-config'):
                try_line(line, program, installed)
                count += 1
    return count


# ---- worked examples

PROGRAM = '''#include <gateway.h>
#include <gateway/refusal.h>
#include <stdio.h>
#include <string.h>

static uint8_t table[GW_MOST_TABLE], text[GW_MOST_TEXT];
static size_t table_len, text_len;
static uint32_t rows[GW_ROWS_SIZE], report[GW_REPORT_SIZE];

%s
static size_t read_file(const char *path, uint8_t *room, size_t size) {
    FILE *file = fopen(path, "rb");
    size_t length = file ? fread(room, 1, size, file) : 0;
    if (file)
        fclose(file);
    return length;
}

int main(int argc, char **argv) {
    table_len = argc > 2 ? read_file(argv[2], table, sizeof table) : 0;
    text_len = argc > 3 ? read_file(argv[3], text, sizeof text) : 0;
    gw_check(table, table_len, text, text_len, rows, GW_ROWS_SIZE, report, GW_REPORT_SIZE);
%s    return 0;
}
'''
# what is shown of a coercion beside what the example prints
MORE = '''
     for (uint32_t i = 0; report[0] == GW_ACCEPTED && i < report[1]; i++)
         printf("%u ", value[i]);
     printf("report %u %u %u %u\\n", report[0], report[1], report[2], report[3]);'''


def worked(path):
    """The examples in a header's comments: paragraphs that are set in and call something."""
    found = []
    for comment in re.findall(r'/\*.*?\*/', (ROOT / path).read_text(), re.S):
        for paragraph in comment[:-2].split('\n\n'):
            if paragraph.startswith('     ') and re.search(r'\bgw_\w+\(', paragraph):
                found.append(paragraph.rstrip())
    return found


def try_worked(room):
    parse, check_table, check, coerce, walk = worked('include/gateway.h')
    tell, = worked('host/refusal.h')
    assert coerce.count('-3') == 1
    functions = {'parse': parse, 'check_table': check_table, 'check': check, 'coerce': coerce + MORE,
                 'too_large': coerce.replace('-3', '2147483648') + MORE, 'walk': walk, 'tell': tell}
    source = PROGRAM % (''.join(f'static void {name}(void) {{\n{body}\n}}\n\n' for name, body in functions.items()),
                        ''.join(f'    if (strcmp(argv[1], "{name}") == 0)\n        {name}();\n' for name in functions))
    pathlib.Path(room, 'worked.c').write_text(source)
    compiled = run([os.environ.get('CC', 'cc'), '-std=c11', '-Wall', '-Wextra', '-Werror', '-Ibuild/include', f'{room}/worked.c',
                    'build/native/libgatewayhost.a', 'build/native/libgateway.a', '-o', f'{room}/worked'], cwd=ROOT)
    assert compiled == (0, '', ''), compiled
    fan = f'{room}/fan.table'
    made = run([ROOT / 'build/gateway', 'table', '-', '-o', fan], input=b'type Query { fan(no: Int!, at: [Float]): Int }')
    assert made[0] == 0, made
    good, wrong = EXAMPLES / 'T.table', EXAMPLES / 'rules/05_field.graphql'
    for words, due in (
            (['parse'], '5 rows, the first of kind 1\n'),
            (['check_table', EXAMPLES / 'refused.table'], 'definition 1 breaks rule 14\n'),
            (['check', good, wrong], f'rule 5 is broken at byte {wrong.read_bytes().index(b"flow")}\n'),
            (['coerce', fan], 'no is -3\n39 0 15 40 0 12 16 0 2 110 111 33 0 4 255 255 255 253 report 0 18 0 0\n'),
            (['too_large', fan], 'report 11 1 2 2\n'),
            (['walk', good, EXAMPLES / 'D.graphql'], 'key 1: machine\nkey 1: machine\nkey 16: fan\n'),
            (['tell', good, wrong], '2:20: refusal 10: a field is not one of the type around it\n    object Fan has no field flow\n')):
        said = run([f'{room}/worked', *words])
        assert said == (0, due, ''), (words, said)
    return len(functions)


def main(installed):
    lines = try_lines(os.path.abspath(installed))
    with tempfile.TemporaryDirectory() as room:
        count = try_worked(room)
    print(f'host: {lines} lines that compile and {count} worked examples do what their pages say')


main(sys.argv[1])
