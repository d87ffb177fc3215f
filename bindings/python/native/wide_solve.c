/* The solver of the tool: see wide_solve.h. Not proved.
 *
 * Places that unmetered streams join are one group; the metered streams between groups are the arcs of a network, and each group
 * has a number. A start in floats (the real-number optimum) gives whole numbers; each arc takes the flow that is cheapest at them;
 * what is then over in a group goes along shortest paths to where something is missing, in steps that halve where much is over.
 * Equally cheap flows are told apart along paths that cost nothing. All but the start is exact, in 128 bits.
 */
/* SPDX-License-Identifier: LicenseRef-Wengeludo */
#include "wide_solve.h"
#include "wengeludo_balance.h"

#include <math.h>
#include <string.h>

__extension__ typedef __int128 wide;

#define REACH ((int64_t)1 << 50)     /* no flow of an arc is looked for beyond */
#define SHUT ((wide)1 << 120)        /* the cost of a step that is not allowed, and the distance of what is not reached */
#define LOST ((wide)1 << 110)        /* a number this large is given up */
#define FEW 512                      /* more than this over: steps that halve */
#define MOST_IMPROVEMENTS 200000
#define LEVEL 1e-6                   /* a slope of the start that is this part of what it was is none */

typedef struct {
    int groups, arcs, ranged;
    int tail[WIDE_STREAMS], head[WIDE_STREAMS]; /* the groups of an arc */
    size_t stream[WIDE_STREAMS];                /* its stream */
    int64_t weight[WIDE_STREAMS], reading[WIDE_STREAMS], low[WIDE_STREAMS], high[WIDE_STREAMS], flow[WIDE_STREAMS];
    wide more[WIDE_STREAMS], less[WIDE_STREAMS]; /* what a unit more, a unit less costs at the present step */
    uint8_t settled[WIDE_STREAMS];               /* no longer to be moved */
    wide number[WIDE_PLACES];
    int64_t over[WIDE_PLACES];                              /* what flows in less what flows out */
    int first[WIDE_PLACES + 1], touching[2 * WIDE_STREAMS]; /* the arcs at a group: 2 * arc, and 1 more where it is the head */
    wide distance[WIDE_PLACES];
    int came[WIDE_PLACES]; /* the last arc of the path to a group, as in `touching` */
    uint8_t seen[WIDE_PLACES];
    int improvements;
} network;

/* ---- sets of places ---- */

static int root(int *above, int k)
{
    while (above[k] != k)
        k = above[k] = above[above[k]];
    return k;
}

static void alone(int *above, int count)
{
    for (int k = 0; k < count; k++)
        above[k] = k;
}

static void join(int *above, int a, int b) { above[root(above, a)] = root(above, b); }

/* ---- the network of a plant ---- */

static int within(int64_t value, int64_t most) { return -most <= value && value <= most; }

static int64_t clipped(int64_t value, int64_t low, int64_t high) { return value < low ? low : value > high ? high : value; }

static int meter_taken(const wide_plant *plant, size_t k)
{
    int in_range = !plant->ranged[k] || plant->low[k] <= plant->high[k];
    return in_range && plant->weight[k] >= 1 && plant->weight[k] <= WENGELUDO_MAX_WIDE_WEIGHT
           && within(plant->reading[k], WENGELUDO_MAX_WIDE_READING);
}

static int taken(const wide_plant *plant)
{
    if (plant->units < 1 || plant->units >= WIDE_PLACES || plant->count > WIDE_STREAMS)
        return 0;
    for (size_t k = 0; k < plant->count; k++) {
        if (plant->from[k] > plant->units || plant->to[k] > plant->units || plant->from[k] == plant->to[k])
            return 0;
        if (plant->metered[k] && !meter_taken(plant, k))
            return 0;
    }
    return 1;
}

static int64_t low_of(const wide_plant *plant, size_t k)
{
    return plant->ranged[k] ? clipped(plant->low[k], -REACH, REACH) : -REACH;
}

static int64_t high_of(const wide_plant *plant, size_t k)
{
    return plant->ranged[k] ? clipped(plant->high[k], -REACH, REACH) : REACH;
}

/* The group of each place, counted by the first place of each, so that the outside is in group 0; gives how many there are. */
static int group_places(const wide_plant *plant, int *group)
{
    int above[WIDE_PLACES], label[WIDE_PLACES], groups = 0;
    alone(above, plant->units + 1);
    for (size_t k = 0; k < plant->count; k++)
        if (!plant->metered[k])
            join(above, plant->from[k], plant->to[k]);
    memset(label, -1, sizeof label);
    for (int place = 0; place <= plant->units; place++) {
        int top = root(above, place);
        if (label[top] < 0)
            label[top] = groups++;
        group[place] = label[top];
    }
    return groups;
}

static void add_arc(network *net, const wide_plant *plant, size_t k, const int *group)
{
    int arc = net->arcs++;
    net->stream[arc] = k;
    net->tail[arc] = group[plant->from[k]];
    net->head[arc] = group[plant->to[k]];
    net->weight[arc] = (int64_t)plant->weight[k];
    net->reading[arc] = plant->reading[k];
    net->low[arc] = low_of(plant, k);
    net->high[arc] = high_of(plant, k);
    net->ranged |= plant->ranged[k] != 0;
    net->settled[arc] = 0;
}

/* Arcs between groups. A metered stream within a group is no arc: it keeps its reading, or the nearest value in its range. */
static void add_arcs(network *net, const wide_plant *plant, const int *group, int64_t *flow)
{
    for (size_t k = 0; k < plant->count; k++) {
        flow[k] = 0;
        if (!plant->metered[k])
            continue;
        if (group[plant->from[k]] == group[plant->to[k]])
            flow[k] = clipped(plant->reading[k], low_of(plant, k), high_of(plant, k));
        else
            add_arc(net, plant, k, group);
    }
}

/* The arcs at each group, in stream order. */
static void list_touching(network *net)
{
    int next[WIDE_PLACES + 1] = {0};
    for (int arc = 0; arc < net->arcs; arc++) {
        next[net->tail[arc] + 1]++;
        next[net->head[arc] + 1]++;
    }
    for (int g = 0; g < net->groups; g++)
        next[g + 1] += next[g];
    memcpy(net->first, next, sizeof next);
    for (int arc = 0; arc < net->arcs; arc++) {
        net->touching[next[net->tail[arc]]++] = 2 * arc;
        net->touching[next[net->head[arc]]++] = 2 * arc + 1;
    }
}

static void build(network *net, const wide_plant *plant, int *group, int64_t *flow)
{
    net->groups = group_places(plant, group);
    net->arcs = net->ranged = net->improvements = 0;
    add_arcs(net, plant, group, flow);
    list_touching(net);
}

/* ---- the start: numbers of the real-number optimum, by Newton's method, in floats. Whatever it gives, the rest is exact. ---- */

typedef struct {
    double number[WIDE_PLACES], over[WIDE_PLACES], step[WIDE_PLACES];
    double curve[WIDE_PLACES][WIDE_PLACES]; /* of the dual; then its factors */
} newton;

static double real_flow(const network *net, int arc, const double *number)
{
    double flow = (double)net->reading[arc] + (number[net->head[arc]] - number[net->tail[arc]]) / (2.0 * (double)net->weight[arc]);
    double low = (double)net->low[arc], high = (double)net->high[arc];
    return flow < low ? low : flow > high ? high : flow;
}

static void add_curve(newton *n, int a, int b, double c)
{
    n->curve[a][b] -= c;
    n->curve[b][a] -= c;
    n->curve[a][a] += c;
    n->curve[b][b] += c;
}

/* What is over in each group at the present numbers, and the curve there. An arc at an end of its range hardly bends. */
static void gather(const network *net, newton *n)
{
    for (int g = 0; g < net->groups; g++) {
        n->over[g] = 0;
        memset(n->curve[g], 0, (size_t)net->groups * sizeof(double));
    }
    for (int arc = 0; arc < net->arcs; arc++) {
        double flow = real_flow(net, arc, n->number), c = 0.5 / (double)net->weight[arc];
        int at_end = flow <= (double)net->low[arc] || flow >= (double)net->high[arc];
        n->over[net->head[arc]] += flow;
        n->over[net->tail[arc]] -= flow;
        add_curve(n, net->tail[arc], net->head[arc], at_end ? c * 1e-7 : c);
    }
}

static double largest(const double *value, int count)
{
    double most = 0;
    for (int k = 0; k < count; k++)
        if (fabs(value[k]) > most)
            most = fabs(value[k]);
    return most;
}

static void eliminate(newton *n, int pivot, int groups)
{
    for (int row = pivot + 1; row < groups; row++) {
        if (n->curve[pivot][row] == 0)
            continue;
        double factor = n->curve[pivot][row] / n->curve[pivot][pivot];
        for (int column = row; column < groups; column++)
            n->curve[row][column] -= factor * n->curve[pivot][column];
    }
}

/* Gaussian elimination of the symmetric curve. A pivot that vanishes is the ground of its piece: its number stays. */
static void factorise(newton *n, int groups)
{
    double full[WIDE_PLACES];
    for (int g = 0; g < groups; g++)
        full[g] = n->curve[g][g];
    for (int g = 0; g < groups; g++) {
        if (n->curve[g][g] <= 1e-13 * full[g])
            n->curve[g][g] = 0;
        else
            eliminate(n, g, groups);
    }
}

static void solve_forwards(newton *n, int groups)
{
    for (int g = 0; g < groups; g++)
        n->step[g] = -n->over[g];
    for (int g = 0; g < groups; g++) {
        if (n->curve[g][g] == 0)
            continue;
        double part = n->step[g] / n->curve[g][g];
        for (int h = g + 1; h < groups; h++)
            n->step[h] -= n->curve[g][h] * part;
    }
}

static void solve_backwards(newton *n, int groups)
{
    for (int g = groups - 1; g >= 0; g--) {
        double rest = n->step[g];
        for (int h = g + 1; h < groups; h++)
            rest -= n->curve[g][h] * n->step[h];
        n->step[g] = n->curve[g][g] == 0 ? 0 : rest / n->curve[g][g];
    }
}

/* How the dual rises along the step, `length` of it on. */
static double slope(const network *net, const newton *n, double length)
{
    double at[WIDE_PLACES], sum = 0;
    for (int g = 0; g < net->groups; g++)
        at[g] = n->number[g] + length * n->step[g];
    for (int arc = 0; arc < net->arcs; arc++)
        sum -= real_flow(net, arc, at) * (n->step[net->head[arc]] - n->step[net->tail[arc]]);
    return sum;
}

typedef struct {
    double at, rise; /* a length along the step, and the slope there */
} spot;

static spot look(const network *net, const newton *n, double length)
{
    spot found = {length, slope(net, n, length)};
    return found;
}

/* Where the slope is nearly level, between two spots: by the line through them, whose older end counts half (the Illinois rule). */
static double level(const network *net, const newton *n, spot near, spot far)
{
    double enough = LEVEL * fabs(near.rise);
    for (int turn = 0; turn < 30; turn++) {
        spot next = look(net, n, (near.at * far.rise - far.at * near.rise) / (far.rise - near.rise));
        if (!(fabs(next.rise) > enough))
            return next.at;
        if ((next.rise > 0) == (far.rise > 0))
            near.rise /= 2;
        else
            near = far;
        far = next;
    }
    return far.at;
}

/* How far to go along the step: all of it without ranges, else to where the dual no longer rises. */
static double length_of_step(const network *net, const newton *n)
{
    if (!net->ranged)
        return 1;
    spot near = look(net, n, 0), far = look(net, n, 1);
    if (!(fabs(far.rise) > LEVEL * fabs(near.rise)))
        return 1;
    while (far.rise > 0 && far.at < 1e9) {
        near = far;
        far = look(net, n, 2 * far.at);
    }
    return far.rise < 0 ? level(net, n, near, far) : far.at;
}

static void improve_start(const network *net, newton *n)
{
    factorise(n, net->groups);
    solve_forwards(n, net->groups);
    solve_backwards(n, net->groups);
    double length = length_of_step(net, n);
    for (int g = 0; g < net->groups; g++)
        n->number[g] += length * n->step[g];
}

static void start(network *net)
{
    newton n;
    int turns = net->ranged ? 40 : 3, sane = 1;
    memset(n.number, 0, sizeof n.number);
    for (int turn = 0; turn < turns; turn++) {
        gather(net, &n);
        if (!(largest(n.over, net->groups) >= 0.01))
            break;
        improve_start(net, &n);
    }
    for (int g = 0; g < net->groups; g++)
        sane &= fabs(n.number[g]) < 1e20;
    for (int g = 0; g < net->groups; g++)
        net->number[g] = sane ? (wide)rint(n.number[g]) : 0;
}

/* ---- the exact part ---- */

static wide quotient(wide value, int64_t by) /* rounded down */
{
    if (value == (int64_t)value) {
        int64_t small = (int64_t)value;
        return small / by - (small % by < 0);
    }
    return value / by - (value % by < 0);
}

/* What a unit more and a unit less costs on an arc that moves by `step`. */
static void price(network *net, int arc, int64_t step)
{
    int64_t flow = net->flow[arc];
    wide off = 2 * ((wide)flow - net->reading[arc]);
    int shut = net->settled[arc];
    net->more[arc] = shut || flow > net->high[arc] - step ? SHUT : net->weight[arc] * (off + step);
    net->less[arc] = shut || flow < net->low[arc] + step ? SHUT : net->weight[arc] * (step - off);
}

/* Gives each arc the flow that is cheapest at the present numbers; gives how much is over in all. */
static int64_t settle(network *net, int64_t step)
{
    int64_t sum = 0;
    memset(net->over, 0, sizeof net->over);
    for (int arc = 0; arc < net->arcs; arc++) {
        int head = net->head[arc], tail = net->tail[arc];
        wide best = net->reading[arc] + quotient(net->number[head] - net->number[tail] + net->weight[arc], 2 * net->weight[arc]);
        net->flow[arc] = best < net->low[arc] ? net->low[arc] : best > net->high[arc] ? net->high[arc] : (int64_t)best;
        net->over[head] += net->flow[arc];
        net->over[tail] -= net->flow[arc];
        price(net, arc, step);
    }
    for (int g = 0; g < net->groups; g++)
        sum += net->over[g] > 0 ? net->over[g] : 0;
    return sum;
}

/* The nearest group that is not yet seen, within `cap`; -1 if there is none. */
static int nearest(const network *net, wide cap)
{
    int found = -1;
    for (int g = 0; g < net->groups; g++)
        if (!net->seen[g] && net->distance[g] <= cap) {
            found = g;
            cap = net->distance[g] - 1;
        }
    return found;
}

static void look_around(network *net, int group)
{
    net->seen[group] = 1;
    for (int k = net->first[group]; k < net->first[group + 1]; k++) {
        int arc = net->touching[k] >> 1, at_head = net->touching[k] & 1;
        int other = at_head ? net->tail[arc] : net->head[arc];
        wide cost = at_head ? net->less[arc] : net->more[arc];
        if (cost >= SHUT || net->seen[other])
            continue;
        cost += net->distance[group] + net->number[group] - net->number[other];
        if (cost < net->distance[other]) {
            net->distance[other] = cost;
            net->came[other] = net->touching[k];
        }
    }
}

/* Shortest paths from a group to `goal`, or (-1) to the nearest group where something is missing, within `cap`; -1 if there is none.
 * Groups that are nearer are then seen. */
static int search(network *net, int from, int goal, wide cap)
{
    for (int g = 0; g < net->groups; g++) {
        net->distance[g] = SHUT;
        net->seen[g] = 0;
    }
    net->distance[from] = 0;
    for (int group = from; group >= 0; group = nearest(net, cap)) {
        if (goal >= 0 ? group == goal : net->over[group] < 0)
            return group;
        look_around(net, group);
    }
    return -1;
}

/* Moves `step` along the path that was found. */
static void move(network *net, int from, int to, int64_t step)
{
    while (to != from) {
        int arc = net->came[to] >> 1, backwards = net->came[to] & 1;
        net->flow[arc] += backwards ? -step : step;
        price(net, arc, step);
        to = backwards ? net->head[arc] : net->tail[arc];
    }
}

/* The numbers after a search that ended at `to`: no step is cheaper than it may be. 0 if one is lost. */
static int renumber(network *net, int to)
{
    int kept = 1;
    for (int g = 0; g < net->groups; g++) {
        if (net->seen[g])
            net->number[g] -= net->distance[to] - net->distance[g];
        kept &= net->number[g] > -LOST && net->number[g] < LOST;
    }
    return kept;
}

/* One step of what is over in a group, to where it is missing. Gives WIDE_NO_FLOW where no path leads there. */
static uint8_t improve(network *net, int from, int64_t step)
{
    int to = search(net, from, -1, SHUT - 1);
    if (to < 0)
        return WIDE_NO_FLOW;
    if (!renumber(net, to) || net->improvements++ >= MOST_IMPROVEMENTS)
        return WIDE_GAVE_UP;
    move(net, from, to, step);
    net->over[from] -= step;
    net->over[to] += step;
    return WIDE_FOUND;
}

/* Moves all that is over, in steps of this size. At step 1 nothing is over in the end, or the groups seen can let no more out. */
static uint8_t phase(network *net, int64_t step)
{
    for (int g = 0; g < net->groups; g++)
        while (net->over[g] >= step) {
            uint8_t answer = improve(net, g, step);
            if (answer == WIDE_GAVE_UP || (answer == WIDE_NO_FLOW && step == 1))
                return answer;
            if (answer == WIDE_NO_FLOW)
                break;
        }
    return WIDE_FOUND;
}

/* Numbers from steps that halve, from about an eighth of what is over. */
static uint8_t halve(network *net, int64_t over)
{
    int64_t step = 1;
    while (step < over / 8)
        step *= 2;
    for (; step > 1; step /= 2) {
        settle(net, step);
        if (phase(net, step) != WIDE_FOUND)
            return WIDE_GAVE_UP;
    }
    settle(net, 1);
    return WIDE_FOUND;
}

static uint8_t balance(network *net)
{
    int64_t over = settle(net, 1);
    if (over > FEW && halve(net, over) != WIDE_FOUND)
        return WIDE_GAVE_UP;
    return phase(net, 1);
}

/* Of equally cheap flows the least on the first arc, then on the second, and so on: a unit less where a path makes up for it at no
 * cost. At most one unit can go: the cost of an arc is strictly convex. */
static void break_ties(network *net)
{
    for (int arc = 0; arc < net->arcs; arc++) {
        int tail = net->tail[arc], head = net->head[arc];
        int free = net->less[arc] < SHUT && net->less[arc] + net->number[head] - net->number[tail] == 0;
        net->settled[arc] = 1;
        price(net, arc, 1);
        if (free && search(net, tail, head, 0) == head) {
            move(net, tail, head, 1);
            net->flow[arc]--;
        }
    }
}

/* ---- the answer ---- */

typedef struct {
    size_t stream[WIDE_PLACES];
    int count;
    int at[WIDE_PLACES]; /* how many of them touch a place */
} forest;

/* What is over at each place by the metered streams; the unmetered streams that close no ring. */
static void plant_forest(const wide_plant *plant, const int64_t *flow, int64_t *over, forest *trees)
{
    int above[WIDE_PLACES];
    alone(above, plant->units + 1);
    for (size_t k = 0; k < plant->count; k++) {
        int from = plant->from[k], to = plant->to[k];
        over[to] += flow[k];
        over[from] -= flow[k];
        if (plant->metered[k] || root(above, from) == root(above, to))
            continue;
        join(above, from, to);
        trees->stream[trees->count++] = k;
        trees->at[from]++;
        trees->at[to]++;
    }
}

/* Gives the streams at the leaves what their places have over, and cuts them off. */
static void cut_leaves(const wide_plant *plant, int64_t *flow, int64_t *over, forest *trees)
{
    int left = 0;
    for (int t = 0; t < trees->count; t++) {
        size_t k = trees->stream[t];
        int from = plant->from[k], to = plant->to[k];
        if (trees->at[from] != 1 && trees->at[to] != 1) {
            trees->stream[left++] = k;
            continue;
        }
        flow[k] = trees->at[from] == 1 ? over[from] : -over[to];
        over[from] -= flow[k];
        over[to] += flow[k];
        trees->at[from]--;
        trees->at[to]--;
    }
    trees->count = left;
}

/* Unmetered streams carry what the balances leave to them, and nothing where they close a ring. */
static void fill_unmetered(const wide_plant *plant, int64_t *flow)
{
    int64_t over[WIDE_PLACES] = {0};
    forest trees = {{0}, 0, {0}};
    plant_forest(plant, flow, over, &trees);
    while (trees.count > 0)
        cut_leaves(plant, flow, over, &trees);
}

/* The first group of the piece that a group belongs to: pieces are joined by arcs. */
static void first_groups(const network *net, int *first)
{
    int above[WIDE_PLACES];
    alone(above, net->groups);
    for (int arc = 0; arc < net->arcs; arc++)
        join(above, net->tail[arc], net->head[arc]);
    for (int g = net->groups - 1; g >= 0; g--)
        first[root(above, g)] = g;
    for (int g = net->groups - 1; g >= 0; g--)
        first[g] = first[root(above, g)];
}

/* The numbers of the places: 0 for the outside, in another piece for the first place. */
static uint8_t fill_numbers(const network *net, const int *group, int places, int64_t *number)
{
    int first[WIDE_PLACES];
    first_groups(net, first);
    for (int place = 0; place < places; place++) {
        wide found = net->number[group[place]] - net->number[first[group[place]]];
        if (found > WENGELUDO_MAX_WIDE_NUMBER || found < -WENGELUDO_MAX_WIDE_NUMBER)
            return WIDE_FAR;
        number[place] = (int64_t)found;
    }
    return WIDE_FOUND;
}

static uint8_t mark(const network *net, const int *group, int places, int64_t *number)
{
    for (int place = 0; place < places; place++)
        number[place] = net->seen[group[place]];
    return WIDE_NO_FLOW;
}

uint8_t wide_solve(const wide_plant *plant, int64_t *flow, int64_t *number)
{
    network net;
    int group[WIDE_PLACES], places = plant->units + 1;
    if (!taken(plant))
        return WIDE_OUTSIDE;
    build(&net, plant, group, flow);
    start(&net);
    uint8_t answer = balance(&net);
    if (answer == WIDE_NO_FLOW)
        return mark(&net, group, places, number);
    if (answer != WIDE_FOUND)
        return answer;
    break_ties(&net);
    for (int arc = 0; arc < net.arcs; arc++)
        flow[net.stream[arc]] = net.flow[arc];
    fill_unmetered(plant, flow);
    return fill_numbers(&net, group, places, number);
}
