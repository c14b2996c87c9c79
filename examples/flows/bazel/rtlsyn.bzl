"""A design of RTLIL synthesised module by module, each by an action of its own, so that Bazel's caches and remote workers
serve. In WORKSPACE, where `//:package` has the files `python/rtlsyn/*.py`:

    load("//:rtlsyn.bzl", "rtlsyn_design")
    rtlsyn_design(name = "soc", design = "//:soc.il", program = "//:rtlsyn", package = "//:package")

Then `bazel build @soc//:netlist`. The design is cut where it is loaded, and again when it changes.
"""

NETLIST = """load("@//:rtlsyn.bzl", "rtlsyn_netlist")
rtlsyn_netlist(name = "netlist", order = "order", parts = %s, program = "%s", package = "%s", script = %s)
"""

def _from_outside(label):
    return "@%s//%s:%s" % (label.workspace_name, label.package, label.name)

def _cut(repository):
    """Cuts the design into parts, and writes a target for its netlist."""
    words = ["python3", "-B", "-m", "rtlsyn.cluster_files", "cut", repository.path(repository.attr.design), "."]
    python = str(repository.path(Label("//:WORKSPACE")).dirname) + "/python"
    done = repository.execute(words + ["--script", repository.attr.script], environment = {"PYTHONPATH": python})
    if done.return_code:
        fail(done.stderr)
    keys = [line.split(" ")[0] for line in repository.read("order").split("\n")[:-1]]
    parts = {"parts/%s.il" % key: key for key in keys}
    program, package = _from_outside(repository.attr.program), _from_outside(repository.attr.package)
    repository.file("BUILD", NETLIST % (repr(parts), program, package, repr(repository.attr.script)))

rtlsyn_design = repository_rule(_cut, attrs = {
    "design": attr.label(mandatory = True, allow_single_file = True),
    "package": attr.label(mandatory = True),
    "program": attr.label(mandatory = True, allow_single_file = True),
    "script": attr.string(default = "proc opt fsm opt memory opt techmap opt"),
})

def _built(context, part, key):
    """The action of one module. What Bazel keeps it under has the part, the script and the program."""
    net = context.actions.declare_file("nets/%s.il" % key)
    context.actions.run_shell(
        command = '"$1" --workers 1 --script "$2" < "$3" > "$4" || { head -c 1000 "$4" >&2; exit 1; }',
        arguments = [context.file.program.path, context.attr.script, part.path, net.path],
        inputs = [part],
        tools = [context.file.program],
        outputs = [net],
        mnemonic = "RtlsynModule",
    )
    return net

def _joined(context):
    """The action that puts the netlists of all modules together in the order of the design."""
    nets = [_built(context, target.files.to_list()[0], key) for target, key in context.attr.parts.items()]
    netlist = context.actions.declare_file("netlist.il")
    context.actions.run_shell(
        command = 'in=$(mktemp -d) && mkdir "$in/nets" && cp "$1" "$in/order" && out="$2" && shift 2 && cp "$@" "$in/nets" && ' +
                  'PYTHONPATH=python python3 -B -m rtlsyn.cluster_files join "$in" > "$out" && rm -r "$in"',
        arguments = [context.file.order.path, netlist.path] + [net.path for net in nets],
        inputs = nets + [context.file.order] + context.files.package,
        outputs = [netlist],
        mnemonic = "RtlsynJoin",
        use_default_shell_env = True,
    )
    return [DefaultInfo(files = depset([netlist]))]

rtlsyn_netlist = rule(_joined, attrs = {
    "order": attr.label(mandatory = True, allow_single_file = True),
    "package": attr.label(mandatory = True),
    "parts": attr.label_keyed_string_dict(mandatory = True, allow_files = True),
    "program": attr.label(mandatory = True, allow_single_file = True),
    "script": attr.string(mandatory = True),
})
