// The run by single operations of a machine: the shared words, what each actor alone knows, and the history.
#pragma once
#include <algorithm>

#include "machine.hpp"

constexpr u64 most_events = 4194304;

enum Kind : uint8_t { Load, Store, Add };
enum Cause : uint8_t { Read, Write, Thaw };
enum Action : uint8_t { Fill, MapLocal, MapRemote, Replicate, Migrate, Collapse, Thawed };
enum Removed : uint8_t { Nothing, Writes, All };
enum State : uint8_t { Empty, Present1, PresentPlus, Modified };
enum End : uint8_t { Halted, Trapped, NoFrames, Spent, Cut };

struct Frame {
    int8_t module = -1;
    uint8_t number = 0;
};
struct Directory {
    State state = Empty;
    bool frozen = false;
    int8_t copy[8] = {-1, -1, -1, -1, -1, -1, -1, -1};
};
struct Translation {
    bool there = false, write = false, marked = false;
    Frame frame;
    u32 seq = 0;
};

enum ItemKind : uint8_t { IsAccess, IsChange, IsApplied, IsSwitch };

// an item of the history; each kind of item uses those fields that it needs
struct Item {
    ItemKind what;
    uint8_t actor, space, page;
    int entry;
    Frame frame;
    Kind kind; // an access
    u32 addr, old, fresh, version, grant;
    u32 seq, time; // a change
    Cause cause;
    Action action;
    Removed removed;
    Directory before, after;
    bool invalidate, interrupt; // an applied message
};

enum class Place : uint8_t {
    Polling,
    Looking,
    Applying,
    Ticking,
    Switching,
    Loading,
    Expecting,
    Exchanging,
    Locking,
    Stamping,
    Seeking,
    Taking,
    Returning,
    Posting,
    PostingOn,
    Asking,
    Interrupting,
    Watching,
    AskingAgain,
    Filling,
    Reading,
    Copying,
    Giving,
    Storing,
    Granting,
    Unlocking,
    Leaving,
    Lessening,
    LiveLooking,
    TimeLooking,
    Over
};
enum class Onward : uint8_t { NewTurn, TurnOver, Relock, Rewait };
struct Target {
    int entry;
    int processor;
};

struct Decision {
    Action action;
    Removed removed;
    Directory after;
    bool sets_last;
    Frame frame;
};

struct Actor {
    Place place = Place::Polling;
    Onward onward = Onward::NewTurn;
    End end = Cut;
    // a scan: by interrupt or by activation, the message that is applied, and how many entries are passed
    bool interrupt = false, invalidate = false;
    int scan = 0;
    u32 pc = 0, reg[16] = {}, turns = 0, now = 0;
    int space = 0, switch_to = 0;
    u64 due = 0, seen = 0;
    vector<u32> printed;
    vector<Translation> map;
    // the access under way
    Kind kind = Load;
    u32 addr = 0, operand = 0;
    int page = 0, word = 0, entry = 0;
    // the session; last is the tick of the last invalidation plus 1, or 0, and step counts within the operations of one kind
    Cause cause = Read;
    int locked_page = 0, locked_entry = -1;
    Directory dir;
    u64 last = 0;
    u32 seq = 0;
    int tried[8], tries = 0, step = 0;
    Decision decision;
    Frame source;
    Frame going[8];
    int goings = 0;
    vector<Target> targets;
};

struct Counts {
    u64 kinds[3] = {}, local = 0, remote = 0, hits = 0, misses = 0;
    int entry[8];
    bool written[8];
};

struct Run {
    const Machine &m;
    int actors;
    u64 time = 0, live, act[8], intr[8] = {}, dir[64] = {}, stamp[64] = {}, pool[8];
    vector<u64> cmap, memory;
    vector<Actor> actor;
    vector<Item> items;
    u64 operations = 0;
    // the schedule
    vector<int> living;
    int last_chosen = -1;
    size_t listed_at = 0;
    u64 random = 0;

    explicit Run(const Machine &machine)
        : m(machine), actors(machine.nodes + (machine.policy == Policy::Platinum)), live(m.nodes), cmap(m.entries.size()),
          memory(size_t(m.nodes) * m.frames * m.words), actor(actors) {
        for (int q = 0; q < m.nodes; q++) {
            act[q] = m.guests[q].space + 1;
            pool[q] = m.frames == 64 ? ~u64(0) : (u64(1) << m.frames) - 1;
            actor[q].space = m.guests[q].space;
            actor[q].map.resize(m.entries.size());
        }
        if (actors > m.nodes) {
            actor[m.nodes].place = Place::LiveLooking;
            actor[m.nodes].due = m.period;
        }
        for (int a = 0; a < actors; a++) living.push_back(a);
        random = (m.seed + 2 * m.stream + 1) * 6364136223846793005u + 2 * m.stream + 1;
        items.reserve(1 << 16);
    }

    u64 &word_of(Frame f, int w) { return memory[(size_t(f.module) * m.frames + f.number) * m.words + w]; }

    static Directory read_dir(u64 n) {
        Directory d;
        d.state = State(n & 3);
        d.frozen = n >> 2 & 1;
        for (int mo = 0; mo < 8; mo++)
            if (n >> (8 + mo) & 1) d.copy[mo] = n >> (16 + 6 * mo) & 63;
        return d;
    }
    static u64 dir_word(const Directory &d) {
        u64 n = d.state | u64(d.frozen) << 2;
        for (int mo = 0; mo < 8; mo++)
            if (d.copy[mo] >= 0) n |= u64(1) << (8 + mo) | u64(d.copy[mo]) << (16 + 6 * mo);
        return n;
    }
    Frame nearest(int node, const Directory &d) const {
        Frame best;
        for (int mo = 0; mo < m.nodes; mo++)
            if (d.copy[mo] >= 0 && (best.module < 0 || m.distance[node][mo] < m.distance[node][best.module]))
                best = Frame{int8_t(mo), uint8_t(d.copy[mo])};
        return best;
    }

    // ---- the parts of a turn

    void turn_over(Actor &p) {
        if (p.turns == m.budget) {
            p.end = Spent;
            p.place = Place::Leaving;
        } else {
            p.onward = Onward::NewTurn;
            p.place = Place::Polling;
        }
    }
    void go_on(Actor &p) {
        switch (p.onward) {
        case Onward::NewTurn: p.place = Place::Ticking; break;
        case Onward::TurnOver: turn_over(p); break;
        case Onward::Relock: p.place = Place::Locking; break;
        case Onward::Rewait: p.place = Place::Watching; break;
        }
    }
    void scan_from(Actor &p, int i) {
        p.scan = i;
        if (i < int(m.of_space[p.space].size())) p.place = Place::Looking;
        else go_on(p);
    }
    bool has_right(const Actor &p) const {
        const Translation &t = p.map[p.entry];
        return t.there && (p.kind == Load || t.write);
    }
    void look_up(Actor &p) {
        if (has_right(p)) p.place = p.kind == Load ? Place::Loading : Place::Expecting;
        else {
            p.cause = p.kind == Load ? Read : Write;
            p.locked_page = p.page;
            p.locked_entry = p.entry;
            p.place = Place::Locking;
        }
    }
    void begin_access(Actor &p, Kind kind, const Instruction &i, u32 operand) {
        p.kind = kind;
        p.operand = operand;
        p.addr = i.number + (i.index >= 0 ? p.reg[i.index] : 0);
        u32 vpage = p.addr / m.words;
        p.entry = vpage < 64 ? m.entry_at[p.space][vpage] : -1;
        if (p.entry < 0) {
            p.end = Trapped;
            p.place = Place::Leaving;
            return;
        }
        p.page = m.entries[p.entry].page;
        p.word = p.addr % m.words;
        look_up(p);
    }
    void execute(Actor &p, int a) {
        const vector<Instruction> &code = m.guests[a].code;
        if (p.pc >= code.size()) {
            p.end = Halted;
            p.place = Place::Leaving;
            return;
        }
        const Instruction &i = code[p.pc];
        u32 *r = p.reg, next = p.pc + 1;
        switch (i.code) {
        case Code::Set: r[i.a] = i.number; break;
        case Code::Move: r[i.a] = r[i.b]; break;
        case Code::Add: r[i.a] = r[i.b] + r[i.c]; break;
        case Code::Sub: r[i.a] = r[i.b] - r[i.c]; break;
        case Code::Mul: r[i.a] = r[i.b] * r[i.c]; break;
        case Code::And: r[i.a] = r[i.b] & r[i.c]; break;
        case Code::Shr: r[i.a] = r[i.b] >> (r[i.c] % 32); break;
        case Code::Load: return begin_access(p, Load, i, 0);
        case Code::Store: return begin_access(p, Store, i, r[i.a]);
        case Code::Fadd: return begin_access(p, Add, i, r[i.b]);
        case Code::Switch:
            p.switch_to = i.number;
            p.place = Place::Switching;
            return;
        case Code::Print: p.printed.push_back(r[i.a]); break;
        case Code::Jump: next = i.target; break;
        case Code::Zero:
            if (r[i.a] == 0) next = i.target;
            break;
        case Code::Less:
            if (r[i.a] < r[i.b]) next = i.target;
            break;
        case Code::Halt:
            p.end = Halted;
            p.place = Place::Leaving;
            return;
        }
        p.pc = next;
        turn_over(p);
    }
    void access_over(Actor &p, int a, u64 n) {
        u32 old = u32(n), version = u32(n >> 32);
        u32 fresh = p.kind == Load ? old : p.kind == Store ? p.operand : old + p.operand;
        const Translation &t = p.map[p.entry];
        Item x{};
        x.what = IsAccess;
        x.actor = a;
        x.kind = p.kind;
        x.space = p.space;
        x.addr = p.addr;
        x.old = old;
        x.fresh = fresh;
        x.version = version + (p.kind != Load);
        x.frame = t.frame;
        x.grant = t.seq;
        x.page = p.page;
        x.entry = p.entry;
        items.push_back(x);
        const Instruction &i = m.guests[a].code[p.pc];
        if (p.kind != Store) p.reg[i.a] = old;
        p.pc++;
        turn_over(p);
    }

    // ---- the parts of a session

    bool asks(const Actor &p, int a) const { return p.cause != Thaw && p.dir.state != Empty && p.dir.copy[a] < 0; }
    enum Verdict { Stay, Freeze, Moves };
    Verdict verdict(const Actor &p) const {
        if (m.policy == Policy::Place) return Stay;
        if (m.policy == Policy::Replicate) return Moves;
        if (p.dir.frozen) return Stay;
        return p.last && p.now < p.last - 1 + m.window ? Freeze : Moves;
    }
    Decision thaws(const Directory &d) const {
        Decision x{Thawed, All, d, false, {}};
        x.after.frozen = false;
        if (d.state == Modified) x.after.state = Present1;
        return x;
    }
    Decision decide(const Actor &p, int a, Frame got) const {
        const Directory &d = p.dir;
        if (p.cause == Thaw) return thaws(d);
        Decision x{MapLocal, Nothing, d, false, {}};
        bool here = d.copy[a] >= 0, moves = got.module >= 0, write = p.cause == Write;
        if (d.state == Empty) {
            x.action = Fill;
            x.after.state = write ? Modified : Present1;
            x.frame = got;
        } else if (!write || d.state != PresentPlus) {
            if (here) x.frame = Frame{int8_t(a), uint8_t(d.copy[a])};
            else if (!moves) {
                x.action = MapRemote;
                x.frame = nearest(a, d);
            } else if (!write) {
                x.action = Replicate;
                x.frame = got;
                x.after.state = PresentPlus;
                if (d.state == Modified) x.removed = Writes;
            } else {
                x.action = Migrate;
                x.frame = got;
                x.removed = All;
                x.sets_last = true;
            }
            if (write) x.after.state = Modified;
        } else {
            x.action = !here && moves ? Migrate : Collapse;
            x.frame = here ? Frame{int8_t(a), uint8_t(d.copy[a])} : moves ? got : nearest(a, d);
            x.removed = All;
            x.sets_last = true;
            x.after.state = Modified;
        }
        if (x.action == Fill || x.action == Migrate || x.action == Collapse)
            for (int8_t &c : x.after.copy) c = -1;
        if (x.action == Fill || x.action == Replicate || x.action == Migrate || x.action == Collapse)
            x.after.copy[x.frame.module] = x.frame.number;
        if (asks(p, a) && verdict(p) == Freeze) x.after.frozen = true;
        return x;
    }
    void seek_from(Actor &p, int a, int i) {
        p.step = i;
        if (i < p.tries) p.place = Place::Seeking;
        else if (p.dir.state == Empty) p.place = Place::Returning;
        else start_course(p, a, Frame{});
    }
    void start_course(Actor &p, int a, Frame got) {
        p.decision = decide(p, a, got);
        p.source = nearest(a, p.dir);
        p.goings = 0;
        for (int mo = 0; mo < 8; mo++)
            if (p.dir.copy[mo] >= 0 && p.decision.after.copy[mo] != p.dir.copy[mo])
                p.going[p.goings++] = Frame{int8_t(mo), uint8_t(p.dir.copy[mo])};
        p.targets.clear();
        p.step = 0;
        if (p.decision.removed == Nothing) shot_over(p);
        else shoot_from(p, 0);
    }
    void shot_over(Actor &p) {
        p.step = 0;
        switch (p.decision.action) {
        case Fill: p.place = Place::Filling; break;
        case Replicate:
        case Migrate: p.place = Place::Reading; break;
        default: give_from(p, 0);
        }
    }
    void give_from(Actor &p, int k) {
        p.step = k;
        p.place = k < p.goings ? Place::Giving : Place::Storing;
    }
    void shoot_from(Actor &p, int k) {
        p.step = k;
        if (k < int(m.of_page[p.locked_page].size())) p.place = Place::Posting;
        else ask_from(p, 0);
    }
    void ask_from(Actor &p, int k) {
        p.step = k;
        if (k < int(p.targets.size())) p.place = Place::Asking;
        else shot_over(p);
    }
    void mask_found(Actor &p, u64 n) {
        if (n & 255) {
            p.seen = n;
            p.place = Place::PostingOn;
        } else shoot_from(p, p.step + 1);
    }
    static u64 posted(Removed removed, int a, u64 n) {
        u64 own = a < 8 ? u64(1) << a : 0, refs = n & 255, invalidates = n >> 8 & 255, restricts = n >> 16 & 255;
        if (removed == Writes) restricts |= refs & ~own & ~invalidates;
        else {
            refs &= ~own;
            invalidates = (invalidates | refs) & ~own;
            restricts &= ~own;
        }
        return refs | invalidates << 8 | restricts << 16;
    }
    bool is_active(const Target &t, u64 n) const { return n == u64(m.entries[t.entry].space) + 1; }
    void page_done(Actor &p) {
        if (p.locked_page + 1 < m.pages) {
            p.locked_page++;
            p.place = Place::Locking;
        } else {
            p.due = (p.now / m.period + 1) * m.period;
            p.place = Place::LiveLooking;
        }
    }
    void change_made(Actor &p, int a) {
        Item x{};
        x.what = IsChange;
        x.actor = a;
        x.page = p.locked_page;
        x.seq = p.seq;
        x.time = p.now;
        x.cause = p.cause;
        x.action = p.decision.action;
        x.removed = p.decision.removed;
        x.before = p.dir;
        x.after = p.decision.after;
        x.entry = p.locked_entry;
        x.frame = p.decision.frame;
        items.push_back(x);
    }

    // ---- one event

    void polls(Actor &p, int a) {
        u64 n = intr[a];
        intr[a] = 0;
        p.interrupt = true;
        if (n >> p.space & 1) scan_from(p, 0);
        else go_on(p);
    }
    void looks(Actor &p, int a) {
        u64 n = cmap[m.of_space[p.space][p.scan]];
        bool waits = n >> (16 + a) & 1;
        p.invalidate = n >> (8 + a) & 1;
        if (p.invalidate || waits) p.place = Place::Applying;
        else scan_from(p, p.scan + 1);
    }
    void applies(Actor &p, int a) {
        int e = m.of_space[p.space][p.scan];
        cmap[e] &= ~(p.invalidate ? u64(0x010101) << a : u64(0x010000) << a);
        Translation &t = p.map[e];
        if (t.there && (p.invalidate || !t.marked)) {
            Item x{};
            x.what = IsApplied;
            x.actor = a;
            x.entry = e;
            x.invalidate = p.invalidate;
            x.interrupt = p.interrupt;
            items.push_back(x);
        }
        if (p.invalidate) t.there = false;
        else {
            t.write = false;
            t.marked = true;
        }
        scan_from(p, p.scan + 1);
    }
    void switches(Actor &p, int a) {
        act[a] = p.switch_to + 1;
        p.space = p.switch_to;
        p.pc++;
        Item x{};
        x.what = IsSwitch;
        x.actor = a;
        x.space = p.space;
        items.push_back(x);
        p.onward = Onward::TurnOver;
        p.interrupt = false;
        scan_from(p, 0);
    }
    void exchanges(Actor &p, int a) {
        u64 &w = word_of(p.map[p.entry].frame, p.word);
        if (w != p.seen) {
            p.seen = w;
            return;
        }
        u32 old = u32(w);
        w = u64(p.kind == Store ? p.operand : old + p.operand) | ((w >> 32) + 1) << 32;
        access_over(p, a, p.seen);
    }
    void locks(Actor &p, int a) {
        u64 n = dir[p.locked_page];
        dir[p.locked_page] |= 8;
        if (n & 8) {
            if (a < m.nodes) {
                p.onward = Onward::Relock;
                p.place = Place::Polling;
            }
            return;
        }
        p.dir = read_dir(n);
        p.place = a == m.nodes && !p.dir.frozen ? Place::Returning : Place::Stamping;
    }
    void loads_stamp(Actor &p, int a) {
        u64 n = stamp[p.locked_page];
        p.last = n & 0xffffffff;
        p.seq = n >> 32;
        p.tries = 0;
        if (p.dir.state == Empty) {
            for (int mo = 0; mo < m.nodes; mo++) p.tried[p.tries++] = mo;
            std::stable_sort(p.tried, p.tried + p.tries, [&](int x, int y) { return m.distance[a][x] < m.distance[a][y]; });
        } else if (asks(p, a) && verdict(p) == Moves) p.tried[p.tries++] = a;
        seek_from(p, a, 0);
    }
    void takes_frame(Actor &p, int a) {
        int mo = p.tried[p.step];
        u64 n = pool[mo];
        if (p.place == Place::Taking && n == p.seen) {
            pool[mo] = n & (n - 1);
            start_course(p, a, Frame{int8_t(mo), uint8_t(__builtin_ctzll(n))});
        } else if (n == 0) seek_from(p, a, p.step + 1);
        else {
            p.seen = n;
            p.place = Place::Taking;
        }
    }
    void returns_page(Actor &p, int a) {
        dir[p.locked_page] = dir_word(p.dir);
        if (a == m.nodes) page_done(p);
        else {
            p.end = NoFrames;
            p.place = Place::Leaving;
        }
    }
    void posts(Actor &p, int a) {
        int e = m.of_page[p.locked_page][p.step];
        u64 n = cmap[e];
        if (n != p.seen) return mask_found(p, n);
        cmap[e] = posted(p.decision.removed, a, n);
        if (a < m.nodes && n >> a & 1) {
            if (p.decision.removed == All) p.map[e].there = false;
            else p.map[e].write = false;
        }
        for (int q = 0; q < m.nodes; q++)
            if (q != a && n >> q & 1) p.targets.push_back({e, q});
        shoot_from(p, p.step + 1);
    }
    void asks_target(Actor &p) {
        const Target &t = p.targets[p.step];
        if (is_active(t, act[t.processor])) p.place = Place::Interrupting;
        else ask_from(p, p.step + 1);
    }
    void interrupts(Actor &p) {
        const Target &t = p.targets[p.step];
        intr[t.processor] |= u64(1) << m.entries[t.entry].space;
        p.place = Place::Watching;
    }
    void watches(Actor &p) {
        const Target &t = p.targets[p.step];
        if (cmap[t.entry] & u64(0x010100) << t.processor) p.place = Place::AskingAgain;
        else ask_from(p, p.step + 1);
    }
    void asks_again(Actor &p, int a) {
        const Target &t = p.targets[p.step];
        if (!is_active(t, act[t.processor])) ask_from(p, p.step + 1);
        else if (a == m.nodes) p.place = Place::Watching;
        else {
            p.onward = Onward::Rewait;
            p.place = Place::Polling;
        }
    }
    void fills(Actor &p) {
        word_of(p.decision.frame, p.step) = m.initial[p.locked_page][p.step];
        if (++p.step == m.words) give_from(p, 0);
    }
    void copies(Actor &p) {
        word_of(p.decision.frame, p.step) = p.seen;
        if (++p.step == m.words) give_from(p, 0);
        else p.place = Place::Reading;
    }
    void gives(Actor &p) {
        pool[p.going[p.step].module] |= u64(1) << p.going[p.step].number;
        give_from(p, p.step + 1);
    }
    void stores_stamp(Actor &p, int a) {
        stamp[p.locked_page] = (p.decision.sets_last ? u64(p.now) + 1 : p.last) | u64(p.seq + 1) << 32;
        p.place = a == m.nodes ? Place::Unlocking : Place::Granting;
    }
    void grants(Actor &p, int a) {
        cmap[p.locked_entry] |= u64(1) << a;
        p.map[p.locked_entry] = Translation{true, p.cause == Write, false, p.decision.frame, p.seq};
        p.place = Place::Unlocking;
    }
    void unlocks(Actor &p, int a) {
        dir[p.locked_page] = dir_word(p.decision.after);
        change_made(p, a);
        if (a == m.nodes) page_done(p);
        else look_up(p);
    }
    void looks_at_live(Actor &p, int a) {
        if (live > 0) p.place = Place::TimeLooking;
        else ended(p, a);
    }
    void looks_at_time(Actor &p) {
        if (time < p.due) {
            p.place = Place::LiveLooking;
            return;
        }
        p.now = time;
        p.cause = Thaw;
        p.locked_page = 0;
        p.locked_entry = -1;
        p.place = Place::Locking;
    }
    void event(int a) {
        Actor &p = actor[a];
        operations++;
        switch (p.place) {
        case Place::Polling: return polls(p, a);
        case Place::Looking: return looks(p, a);
        case Place::Applying: return applies(p, a);
        case Place::Ticking:
            p.now = ++time;
            p.turns++;
            return execute(p, a);
        case Place::Switching: return switches(p, a);
        case Place::Loading: return access_over(p, a, word_of(p.map[p.entry].frame, p.word));
        case Place::Expecting:
            p.seen = word_of(p.map[p.entry].frame, p.word);
            p.place = Place::Exchanging;
            return;
        case Place::Exchanging: return exchanges(p, a);
        case Place::Locking: return locks(p, a);
        case Place::Stamping: return loads_stamp(p, a);
        case Place::Seeking:
        case Place::Taking: return takes_frame(p, a);
        case Place::Returning: return returns_page(p, a);
        case Place::Posting: return mask_found(p, cmap[m.of_page[p.locked_page][p.step]]);
        case Place::PostingOn: return posts(p, a);
        case Place::Asking: return asks_target(p);
        case Place::Interrupting: return interrupts(p);
        case Place::Watching: return watches(p);
        case Place::AskingAgain: return asks_again(p, a);
        case Place::Filling: return fills(p);
        case Place::Reading:
            p.seen = word_of(p.source, p.step);
            p.place = Place::Copying;
            return;
        case Place::Copying: return copies(p);
        case Place::Giving: return gives(p);
        case Place::Storing: return stores_stamp(p, a);
        case Place::Granting: return grants(p, a);
        case Place::Unlocking: return unlocks(p, a);
        case Place::Leaving:
            act[a] = 0;
            p.place = Place::Lessening;
            return;
        case Place::Lessening: live--; return ended(p, a);
        case Place::LiveLooking: return looks_at_live(p, a);
        case Place::TimeLooking: return looks_at_time(p);
        case Place::Over: return;
        }
    }
    void ended(Actor &p, int a) {
        p.place = Place::Over;
        living.erase(std::find(living.begin(), living.end(), a));
    }

    // ---- the schedule

    int robin() {
        for (int a : living)
            if (a > last_chosen) return a;
        return living[0];
    }
    int choose() {
        if (m.turns == Turns::Random) {
            u64 s = random;
            random = s * 6364136223846793005u + 2 * m.stream + 1;
            u32 x = u32((s >> 18 ^ s) >> 27), r = s >> 59;
            return living[(x >> r | x << (-r & 31)) % living.size()];
        }
        if (m.turns == Turns::Listed)
            while (listed_at < m.listed.size()) {
                int a = m.listed[listed_at++];
                if (std::find(living.begin(), living.end(), a) != living.end()) return last_chosen = a;
            }
        return last_chosen = robin();
    }
    void run() {
        while (!living.empty() && operations < most_events) event(choose());
    }
};
