#!/usr/bin/env python3
"""Writes a directory of Java files: generate.py DIR BYTES. Each file has about 64 KiB."""
import os
import sys

BODY = '''
    /** Adds up what the accounts hold, and skips those that are closed. */
    public long total{n}(int first, long[] amounts, String name) {{
        long sum = 0L;
        // one step for each account
        for (int index = first; index < amounts.length; index++) {{
            if (amounts[index] >= 0x7f && index % 3 != {n}) {{
                sum += amounts[index] * 2 - (first << 1);
            }} else {{
                sum = sum >>> 1 ^ amounts[index] & 1_000_000L;
            }}
        }}
        String text = "total {n} of " + name + "\\n\\tand more";
        char mark = text.length() > 10 ? 'x' : '\\u0041';
        StringBuilder builder = new StringBuilder();
        builder.append(text).append(mark).append(sum == 0 ? "none" : "some");
        return builder.toString().hashCode() + sum;
    }}
'''


def main():
    directory, size = sys.argv[1], int(sys.argv[2])
    os.makedirs(directory, exist_ok=True)
    written = 0
    number = 0
    while written < size:
        name = "Bank%d" % number
        parts = ["package bank;\n\npublic final class %s {\n" % name]
        length = len(parts[0])
        row = 0
        while length < 65536 and written + length < size:
            part = BODY.format(n=row)
            parts.append(part)
            length += len(part)
            row += 1
        parts.append("}\n")
        text = "".join(parts)
        with open(os.path.join(directory, name + ".java"), "w") as out:
            out.write(text)
        written += len(text)
        number += 1


main()
