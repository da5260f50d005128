"""Test benches for Icarus Verilog: random inputs for a module of others, and registers that begin at 0."""
import re

ROWS = 100
VARIABLES = ("reg", "integer", "logic", "bit", "int")


def bench(top, ports, waveform, edge, depth, first):
    """A test bench with random inputs, which change between the edges that make the rows. All clocks rise together. An inout has a weak driver, which
    gives way to those of the module. `first` are statements before the first row."""
    lines = ["`timescale 1ns/1ps", "module survey_bench;", "reg survey_clock = 0;", "integer survey_row, survey_seed, survey_i, survey_bit;"]
    values = []
    for name, (way, width) in ports.items():
        reg = f"{name}_given" if way == "inout" else name
        lines += [f"wire [{width - 1}:0] {name};"] if way in ("output", "inout") else []
        lines += [f"reg [{width - 1}:0] {reg};"] if way in ("input", "inout") else []
        lines += [f"assign (weak1, weak0) {name} = {reg};"] if way == "inout" else []
        values += [f"{reg} = {{{', '.join(['$random(survey_seed)'] * ((width + 31) // 32))}}};"] if way in ("input", "inout") else []
    links = [f".{name}({'survey_clock' if way == 'clock' else name})" for name, (way, _) in ports.items()]
    lines += [f"{top} dut ({', '.join(links)});", "always #5000 survey_clock = !survey_clock;", "initial begin",
              f'survey_seed = 7; $dumpfile("{waveform}"); $dumpvars({depth}, survey_bench); #1000;', *first,
              f"for (survey_row = 0; survey_row < {ROWS}; survey_row = survey_row + 1) begin", *values,
              f"@({'' if edge == '--both' else 'posedge '}survey_clock) #1000;", "end", f"#{5000 if edge == '--falling' else 3000} $finish;", "end",
              "endmodule", ""]
    return "\n".join(lines)


def zeros(waveform, modules, top):
    """Statements that write 0 where a variable or a memory of a module is x. The waveform has all variables, and yosys has the memories."""
    return list(variables(waveform)) + list(memories(modules, top, "dut"))


def variables(waveform):
    """The statements for the variables below the module, from the head of a waveform."""
    at, kinds = [], []
    with open(waveform) as file:
        for words in map(str.split, file):
            if words[:1] == ["$enddefinitions"]:
                return
            if words[:1] == ["$scope"]:
                at, kinds = at + [words[2]], kinds + [words[1]]
            elif words[:1] == ["$upscope"]:
                at, kinds = at[:-1], kinds[:-1]
            elif words[:1] == ["$var"] and words[1] in VARIABLES and at[1:2] == ["dut"] and not {"function", "task"} & set(kinds):
                path, ends = ".".join(at[1:] + [words[4]]), re.search(r"\[(-?\d+):(-?\d+)\]", " ".join(words[5:]))
                if re.fullmatch(r"[\w.\[\]]+", path) and int(words[2]) == 1:
                    yield f"if ({path} === 1'bx) {path} = 0;"
                elif re.fullmatch(r"[\w.\[\]]+", path) and ends:
                    low, high = sorted(map(int, ends.groups()))
                    yield (f"for (survey_bit = {low}; survey_bit <= {high}; survey_bit = survey_bit + 1) "
                           f"if ({path}[survey_bit] === 1'bx) {path}[survey_bit] = 0;")


def memories(modules, row, path):
    """The statements for the memories of a module and of those below it."""
    for name, memory in row.get("memories", {}).items():
        if re.fullmatch(r"[\w.\[\]]+", name):
            low = memory.get("start_offset", 0)
            word = f"{path}.{name}[survey_i]"
            yield (f"for (survey_i = {low}; survey_i < {low + memory['size']}; survey_i = survey_i + 1) "
                   f"if (^{word} === 1'bx) {word} = 0;")
    for name, cell in row["cells"].items():
        if cell["type"] in modules and re.fullmatch(r"[\w.\[\]]+", name):
            yield from memories(modules, modules[cell["type"]], f"{path}.{name}")
