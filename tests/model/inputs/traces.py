"""Words for the files of a trace."""


def trace_words(chance):
    return chance.choice([["--vcd", "it.vcd"], ["--svg=it.svg"], ["--svg", "it.svg", "--vcd", "it.vcd"]])
