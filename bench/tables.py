"""What the commands of this directory share: rows of tables, and the time to start a program and to match a path."""

import datetime
import os

import measure
import programs
import workloads


def head(title, baseline, settings):
    """The first lines of results: where, when and of what."""
    load = ", ".join(f"{each:.1f}" for each in os.getloadavg())
    if settings.program:
        baseline += " `globsift` was handed over by `--program`, not built from this commit for the measurement."
    return (
        f"# {title}\n\n{measure.machine()}, {datetime.date.today()}, commit {programs.commit()}. {baseline} A run of"
        f" {settings.limit} s was stopped.\nThe load of the machine was {load} at the start. {settings.note}".rstrip()
    )


def write_lines(folder, name, lines):
    path = os.path.join(folder, name)
    with open(path, "w", encoding="utf-8") as file:
        file.writelines(line + "\n" for line in lines)
    return path


def command(program, arguments):
    """The command of a program: arguments that begin with `-` are options up to the first glob."""
    first = next(index for index, argument in enumerate(arguments) if argument[:1] != "-")
    return [program] + arguments[:first] + ["--"] + arguments[first:]


def print_row(cells):
    print("| " + " | ".join(cells) + " |", flush=True)


def print_head(table, *titles):
    print(f"\n## {table}\n")
    print_row(titles)
    print_row(["---"] + ["---:"] * (len(titles) - 1))


def in_unit(result, unit, digits):
    if isinstance(result, measure.Failed):
        return str(result)
    return f"{result / unit:,.{digits}f}"


def ratio(baseline, globsift):
    if isinstance(baseline, measure.Failed) or isinstance(globsift, measure.Failed) or baseline == 0:
        return ""
    return f"{globsift / baseline:.2f}"


def quantile(sorted_values, part):
    """The least value that is not below this part of the values, or None if there is none."""
    return sorted_values[max(0, -int(-part * len(sorted_values) // 1) - 1)] if sorted_values else None


def same_output(commands, limit, path):
    """The number of lines that both programs write, or None if one of them fails. The benchmark ends if they differ."""
    try:
        outputs = [measure.output_digest(each, limit, path) for each in commands]
    except measure.Failed:
        return None
    if outputs[0] != outputs[1]:
        raise SystemExit(f"the programs write different lines for {commands[1]} and {path}")
    return outputs[0][0]


def start_and_path_cost(each, files, settings):
    """The seconds of a command before the first line, and those for one path.

    These are told by the first file of paths that takes long enough, or by the last.
    """
    least_start, cost = None, None
    for count, path in files:
        start, whole = measure.least([(each, os.devnull), (each, path)], settings.runs, settings.limit)
        if isinstance(start, measure.Failed):
            return start, start
        least_start = min(start, least_start or start)
        if isinstance(whole, measure.Failed):
            return least_start, cost or whole
        cost = max(0, whole - least_start) / count
        if whole - least_start > max(0.3, least_start):
            break
    return least_start, cost


def files_of_paths(folder, settings):
    """Files of more and more paths, each after the number of its paths."""
    paths = workloads.paths(settings.lines)
    samples = [paths[: max(1, settings.lines // 2_000)], paths[: max(1, settings.lines // 20)], 5 * paths]
    return [(len(sample), write_lines(folder, f"{len(sample)} paths", sample)) for sample in samples]


def peak(each, settings):
    try:
        return measure.peak_bytes(each, settings.limit, workloads.paths(100))
    except measure.Failed as failed:
        return failed
