// The run by single operations of a machine text in plain C++, from the rules that docs/MODEL.md tells. Nothing of it is
// proved, and it shares no line with the crates. It is there to be compared with `platinum sim fine`: `examples/plain-check`
// compares what they write, and `examples/benchmark` how fast they are.
//
// usage: plain [trace | count] < TEXT
//
// It writes the report, the history, or how many operations were made. The text has to be one that `platinum check` accepts.
#include <cstdio>
#include <cstring>
#include <iostream>

#include "run.hpp"

static const char *const end_names[] = {"halted", "trapped", "noframes", "spent", "cut"};
static const char *const kind_names[] = {"load", "store", "add"};
static const char *const action_names[] = {"fill", "maplocal", "mapremote", "replicate", "migrate", "collapse", "thaw"};

static string directory(const Directory &d) {
    static const char *const names[] = {"empty", "present1", "present+", "modified"};
    string s = names[d.state];
    if (d.frozen) s += "*";
    char sep = ':';
    for (int mo = 0; mo < 8; mo++)
        if (d.copy[mo] >= 0) {
            s += sep + std::to_string(mo) + "." + std::to_string(d.copy[mo]);
            sep = ',';
        }
    return s;
}

static void write_item(const Machine &m, const Item &x) {
    static const char *const causes[] = {"read", "write", "thaw"}, *const removes[] = {"none", "writes", "all"};
    switch (x.what) {
    case IsAccess:
        printf("access %d %s %d %u %d %u %u %u %u %d %d %u\n", x.actor, kind_names[x.kind], x.space, x.addr, x.page,
               x.addr % m.words, x.old, x.fresh, x.version, x.frame.module, x.frame.number, x.grant);
        break;
    case IsChange:
        printf("change %d %d %u %u %s %s %s %s %s ", x.actor, x.page, x.seq, x.time, causes[x.cause], action_names[x.action],
               removes[x.removed], directory(x.before).c_str(), directory(x.after).c_str());
        if (x.entry < 0) printf("none\n");
        else printf("%d.%d.%d.%c\n", x.entry, x.frame.module, x.frame.number, x.cause == Write ? 'w' : 'r');
        break;
    case IsApplied:
        printf("applied %d %d %s %s\n", x.actor, x.entry, x.invalidate ? "invalidate" : "restrict",
               x.interrupt ? "interrupt" : "activation");
        break;
    case IsSwitch: printf("switch %d %d\n", x.actor, x.space); break;
    }
}

static void write_trace(const Machine &m, const Run &r) {
    printf("history 1\n");
    for (auto &line : m.canonical) printf("%s\n", line.c_str());
    printf("items %zu\n", r.items.size());
    for (auto &x : r.items) write_item(m, x);
    printf("ends\n");
    for (int q = 0; q < m.nodes; q++) printf("processor %d %s %u\n", q, end_names[r.actor[q].end], r.actor[q].turns);
    printf("end\n");
}

static void write_report(const Machine &m, const Run &r) {
    static u32 flat[64][64];
    memcpy(flat, m.initial, sizeof flat);
    vector<Counts> counts(m.nodes);
    for (auto &c : counts)
        for (int &e : c.entry) e = -1;
    u64 changes[7] = {}, freezes = 0, applied[2] = {};
    for (auto &x : r.items) {
        if (x.what == IsAccess) {
            Counts &c = counts[x.actor];
            flat[x.page][x.addr % m.words] = x.fresh;
            c.kinds[x.kind]++;
            (x.frame.module == x.actor ? c.local : c.remote)++;
            int place = x.addr / m.words % 8;
            bool writes = x.kind != Load;
            if (c.entry[place] == x.entry && (!writes || c.written[place])) c.hits++;
            else {
                c.misses++;
                c.entry[place] = x.entry;
                c.written[place] = writes;
            }
        } else if (x.what == IsChange) {
            changes[x.action]++;
            freezes += x.after.frozen && !x.before.frozen;
            if (x.removed != Nothing && x.actor < m.nodes)
                for (int &e : counts[x.actor].entry)
                    if (e >= 0 && m.entries[e].page == x.page) e = -1;
        } else if (x.what == IsApplied) {
            applied[x.interrupt ? 0 : 1]++;
            for (int &e : counts[x.actor].entry)
                if (e == x.entry) e = -1;
        } else
            for (int &e : counts[x.actor].entry) e = -1;
    }
    printf("platinum report 1\n");
    for (int q = 0; q < m.nodes; q++) {
        printf("processor %d %s %u\n", q, end_names[r.actor[q].end], r.actor[q].turns);
        for (u32 v : r.actor[q].printed) printf("print %d %u\n", q, v);
    }
    for (int p = 0; p < m.pages; p++)
        for (int w = 0; w < m.words; w++)
            if (flat[p][w]) printf("word %d %d %u\n", p, w, flat[p][w]);
    for (int q = 0; q < m.nodes; q++) {
        Counts &c = counts[q];
        printf("access %d loads %lu stores %lu adds %lu local %lu remote %lu\n", q, c.kinds[0], c.kinds[1], c.kinds[2], c.local,
               c.remote);
        printf("atc %d hits %lu misses %lu\n", q, c.hits, c.misses);
    }
    printf("changes");
    for (int k = 0; k < 7; k++) printf(" %s %lu", action_names[k], changes[k]);
    printf(" freezes %lu\napplied interrupt %lu activation %lu\nitems %zu\n", freezes, applied[0], applied[1], r.items.size());
}

int main(int argc, char **argv) {
    Machine m = read_machine(std::cin);
    Run r(m);
    r.run();
    if (argc > 1 && !strcmp(argv[1], "trace")) write_trace(m, r);
    else if (argc > 1 && !strcmp(argv[1], "count")) printf("%lu\n", r.operations);
    else write_report(m, r);
}
