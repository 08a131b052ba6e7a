"""The requests that `bench/measure` and `bench/compare` time: what they are, over which sales, and how one answer is timed.

A request is a line, or a pipeline over the sales, beside a statement of SQLite that is meant to say the same. Rows and
joins take time that grows with the rows that they read and make. Groupings find a key by its hash, so that theirs grows with
the rows; `group_keys` has a group for each sale. Recursive rollups take time that grows with the rows at or below each node
that is shown.

The time of an answer is in processor seconds, so that other work on the machine counts little: the least of K answers of
one run with one worker, which has answered the line once before.
"""
import argparse
import ctypes
import importlib.machinery
import importlib.util
import os
import pathlib
import subprocess
import sys
import tempfile
import time

HERE = pathlib.Path(__file__).resolve().parent
ROWS = {
    "sum": ("aggregate(Amount with sum as T,$count as N)", "select sum(amount), count(*) from sales"),
    "least_and_distinct": (
        "aggregate(Amount with min as L,Amount with max as M,OrgID with countdistinct as D)",
        "select min(amount), max(amount), count(distinct org) from sales",
    ),
    "filter_numbers": (
        "filter((Amount mul 3 sub 7) gt 100 and ID add 1 lt 150000)/aggregate($count as N)",
        "select count(*) from sales where amount * 3 - 700 > 10000 and id + 1 < 150000",
    ),
    "filter_texts": (
        "filter(startswith(OrgID,'O1') and contains(CustomerID,'C') and length(OrgID) gt 3)/aggregate($count as N)",
        "select count(*) from sales where org like 'O1%' and instr(customer, 'C') > 0 and length(org) > 3",
    ),
    "filter_navigation": (
        "filter(Amount gt 95 and Customer/Country eq 'US')",
        "select sales.* from sales join customers c on c.id = customer where amount > 9500 and c.country = 'US'",
    ),
    "order_page": (
        "orderby(Amount desc,ID)/skip(10000)/top(20)",
        "select * from sales order by amount desc, id limit 20 offset 10000",
    ),
    "order_all": ("orderby(CustomerID,Amount desc)", "select * from sales order by customer, amount desc"),
    "compute": (
        "compute(Amount mul 2 as D,Amount add ID as E)",
        "select *, amount * 2, amount + id * 100 from sales",
    ),
    "identity": ("identity", "select * from sales"),
}

GROUPINGS = {
    "group_text": (
        "groupby((OrgID),aggregate(Amount with sum as T,$count as N))",
        "select org, sum(amount), count(*) from sales group by org",
    ),
    "group_two_keys": (
        "groupby((CustomerID,OrgID),aggregate($count as N))",
        "select customer, org, count(*) from sales group by customer, org",
    ),
    "group_navigation": (
        "groupby((Customer/Country),aggregate(Amount with sum as T))",
        "select c.country, sum(amount) from sales join customers c on c.id = customer group by c.country",
    ),
    "custom": ("aggregate(Best)", "select max(t) from (select sum(amount) as t from sales group by customer)"),
    "group_keys": ("groupby((ID))", "select id from sales group by id"),
    "group_tops": (
        "groupby((CustomerID),orderby(Amount desc)/top(3))",
        "select * from (select *, row_number() over (partition by customer order by amount desc) as r from sales) where r <= 3",
    ),
    "rollup": (
        "groupby((rollup($all,Customer/Country,CustomerID)),aggregate(Amount with sum as T))",
        "select c.country, customer, sum(amount) from sales join customers c on c.id = customer group by c.country, customer"
        " union all select c.country, null, sum(amount) from sales join customers c on c.id = customer group by c.country"
        " union all select null, null, sum(amount) from sales",
    ),
}

JOINS = {
    "join": (
        "Customers?$apply=join(Sales as S)",
        "select c.*, s.* from customers c join sales s on s.customer = c.id order by c.rowid, s.id",
    ),
    "join_sum": (
        "Customers?$apply=join(Sales as S,aggregate(Amount with sum as T))",
        "select c.*, (select sum(amount) from sales s where s.customer = c.id) from customers c",
    ),
    "join_group": (
        "Customers?$apply=join(Sales as S)/groupby((Country),aggregate(S/Amount with sum as T))",
        "select c.country, sum(s.amount) from customers c join sales s on s.customer = c.id group by c.country",
    ),
    "outer_join": (
        "Customers?$apply=outerjoin(Sales as S,filter(Amount gt 99))",
        "select c.*, s.* from customers c left join sales s on s.customer = c.id and s.amount > 9900",
    ),
    "concat": (
        "Sales?$apply=concat(filter(Amount gt 99),aggregate(Amount with sum as T))",
        "select id, amount, customer, org from sales where amount > 9900 union all select null, sum(amount), null, null from sales",
    ),
    "top_count": ("Sales?$apply=topcount(20,Amount)", "select * from sales order by amount desc, id limit 20"),
    "top_sum": (
        "Sales?$apply=topsum(10000,Amount)",
        "select * from (select *, sum(amount) over (order by amount desc, id) - amount as before from sales) where before < 1000000 order by id",
    ),
    "top_percent": (
        "Sales?$apply=toppercent(50,Amount)",
        "select * from (select *, sum(amount) over (order by amount desc, id) - amount as before, sum(amount) over () as whole from sales)"
        " where 100 * before < 50 * whole order by id",
    ),
}


# the nodes at or below each node, and those at or above it, each with its distance
BELOW = (
    "with recursive below(top, node, far) as (select id, id, 0 from orgs"
    " union all select below.top, orgs.id, far + 1 from below join orgs on orgs.parent = below.node) "
)

HIERARCHIES = {
    "roll_nodes": (
        "Sales?$apply=groupby((rolluprecursive($root/Orgs,OrgTree,OrgID)),aggregate(Amount with sum as T))",
        BELOW + "select top, sum(amount) from below join sales on org = node group by top",
    ),
    "roll_few_nodes": (
        "Sales?$apply=groupby((rolluprecursive($root/Orgs,OrgTree,OrgID,top(4))),aggregate(Amount with sum as T))",
        BELOW + "select top, sum(amount) from below join sales on org = node where top in ('O0','O1','O2','O3') group by top",
    ),
    "descendants": (
        "Sales?$apply=descendants($root/Orgs,OrgTree,OrgID,filter(OrgID eq 'O1'),keep start)/aggregate($count as N)",
        BELOW + "select count(*) from sales where org in (select node from below where top = 'O1')",
    ),
    "ancestors": (
        "Sales?$apply=ancestors($root/Orgs,OrgTree,OrgID,filter(OrgID eq 'O9'),2)/aggregate($count as N)",
        BELOW + "select count(*) from sales where org in (select top from below where node = 'O9' and far between 1 and 2)",
    ),
    "traverse": (
        "Sales?$apply=traverse($root/Orgs,OrgTree,OrgID,preorder)",
        "with recursive walk(id, path) as (select id, printf('%06d', rowid) from orgs where parent is null"
        " union all select orgs.id, path || printf('%06d', orgs.rowid) from walk join orgs on orgs.parent = walk.id)"
        " select sales.* from walk join sales on org = walk.id order by path, sales.id",
    ),
    "traverse_nodes": (
        "Orgs?$apply=traverse($root/Orgs,OrgTree,ID,preorder,ID desc)",
        "with recursive walk(id, path) as (select id, id from orgs where parent is null"
        " union all select orgs.id, path || '/' || orgs.id from walk join orgs on orgs.parent = walk.id)"
        " select orgs.* from walk join orgs on orgs.id = walk.id order by path desc",
    ),
}

# each kind with its requests and the numbers of sales
KINDS = {
    "rows": (ROWS, "50000,100000,200000"),
    "groupings": (GROUPINGS, "50000,100000,200000"),
    "joins": (JOINS, "50000,100000,200000"),
    "hierarchies": (HIERARCHIES, "50000,100000,200000"),
}


def load_script():
    """The module of `bench/load`, which makes the world and measures loads."""
    loader = importlib.machinery.SourceFileLoader("load", str(HERE / "load"))
    module = importlib.util.module_from_spec(importlib.util.spec_from_loader("load", loader))
    loader.exec_module(module)
    return module


def read_words(text):
    """The words of a command, with its help."""
    words = argparse.ArgumentParser(description=text, formatter_class=argparse.RawDescriptionHelpFormatter)
    words.add_argument("--program", default=str(HERE.parent / "crates/apply_serve/out/apply_serve"))
    words.add_argument("--kinds", default=",".join(KINDS), help="which kinds of requests (all)")
    words.add_argument("--counts", help="over how many sales, in place of the kinds' own numbers")
    words.add_argument("--requests", help="which requests of these kinds, by name (all)")
    words.add_argument("--times", type=int, default=4, help="K, see above (4)")
    given = words.parse_args()
    for kind in given.kinds.split(","):
        if kind not in KINDS:
            words.error("no kind %s; there are %s" % (kind, ", ".join(KINDS)))
    names = [name for kind in given.kinds.split(",") for name in KINDS[kind][0]]
    for name in given.requests.split(",") if given.requests else []:
        if name not in names:
            words.error("no request %s; there are %s" % (name, ", ".join(names)))
    given.program = os.path.abspath(given.program)
    if not os.access(given.program, os.X_OK):
        sys.exit("no program at %s: `rt run` in crates/apply_serve makes it" % given.program)
    return given


def worlds(given):
    """For each number of sales: that number, a folder with the model and the data, and the requests, each a name, a line
    and a statement."""
    asked = {}
    for kind in given.kinds.split(","):
        known, counts = KINDS[kind]
        for count in map(int, (given.counts or counts).split(",")):
            for name, (request, statement) in known.items():
                if not given.requests or name in given.requests.split(","):
                    line = request if "?$apply=" in request else "Sales?$apply=" + request
                    asked.setdefault(count, []).append((name, line, statement))
    sales_world = load_script().sales_world
    with tempfile.TemporaryDirectory() as made:
        folder = pathlib.Path(made)
        for count in sorted(asked):
            model, data, _, _ = sales_world(count, 8, "whole")
            (folder / "model.json").write_text(model)
            (folder / "data.json").write_text("{%s}" % data)
            yield count, folder, asked[count]


class Service:
    """A run of the program over the files of a folder, by one worker, that is kept while it is asked."""

    def __init__(self, program, folder):
        words = ["--workers", "1", "--model", str(folder / "model.json"), "--data", str(folder / "data.json")]
        self.run = subprocess.Popen([program] + words, stdin=subprocess.PIPE, stdout=subprocess.PIPE)
        clock = ctypes.c_int()
        if ctypes.CDLL(None).clock_getcpuclockid(self.run.pid, ctypes.byref(clock)) != 0:
            sys.exit("no clock tells the processor seconds of another process")
        self.clock = clock.value

    def __enter__(self):
        return self

    def __exit__(self, *_):
        self.run.stdin.close()
        self.run.stdout.close()
        self.run.wait()

    def spent(self):
        """Its processor seconds, those of threads that have ended too."""
        return time.clock_gettime(self.clock)

    def peak(self):
        """The peak of its memory in megabytes."""
        status = pathlib.Path("/proc/%d/status" % self.run.pid).read_text()
        return int(status.split("VmHWM:")[1].split()[0]) * 1024 / 1e6

    def ask(self, line):
        """The code and the body of the answer to a line."""
        self.run.stdin.write(line.encode() + b"\n")
        self.run.stdin.flush()
        head = self.run.stdout.readline().split()
        if not head:
            sys.exit("the program ended before it answered %s" % line)
        return int(head[0]), self.run.stdout.read(int(head[1]) + 1)[:-1]


def answer(program, folder, line, times):
    """The code, the body, the processor seconds of one answer, and the peak in megabytes of a run that loads and answers it."""
    with Service(program, folder) as service:
        code, body = service.ask(line)
        peak, least = service.peak(), float("inf")
        for _ in range(times):
            before = service.spent()
            service.ask(line)
            least = min(least, service.spent() - before)
    return code, body, least, peak
