// The peer of `clear`: clears an hour with LEMON's network simplex and prints the rows that `clear` prints.
//   peer HOUR
// It wants an hour that `clear` does not refuse: of the rules in docs/FORMAT.md it looks at the length alone.
// It does not push as `clear` does, so it prints `pushes 0`. Where prices are equal its amounts may be others.
#include <algorithm>
#include <cstdio>
#include <cstdlib>
#include <vector>
#include <lemon/network_simplex.h>
#include <lemon/smart_graph.h>

using Number = long long;
using Graph = lemon::SmartDigraph;
using Simplex = lemon::NetworkSimplex<Graph, Number, Number>;

// A bid is an arc between its zone and the hub, a line one between two zones; a unit on it costs `cost`.
struct Arc {
    int tail, head;
    Number cost, limit, flow;
};

struct Hour {
    int zones;
    std::vector<Arc> buys, sells, lines;
    int hub() const { return zones; }
};

static unsigned char bytes[1 << 15];
static size_t place = 0;

static Number take(int length) {
    Number value = 0;
    for (int i = 0; i < length; i++) value |= Number(bytes[place++]) << (8 * i);
    return value;
}

static bool read_hour(const char* name, Hour& hour) {
    FILE* file = fopen(name, "rb");
    if (!file) return false;
    size_t length = fread(bytes, 1, sizeof bytes, file);
    fclose(file);
    hour.zones = take(1);
    size_t buys = take(2), sells = take(2), lines = take(2);
    if (length != 7 + 7 * (buys + sells) + 5 * lines || length == sizeof bytes) return false;
    // A unit that leaves by a buy costs less than nothing: what the buyer pays.
    for (; buys > 0; buys--) {
        int zone = take(1);
        Number price = take(3), amount = take(3);
        hour.buys.push_back({zone, hour.hub(), -price, amount, 0});
    }
    for (; sells > 0; sells--) {
        int zone = take(1);
        Number price = take(3), amount = take(3);
        hour.sells.push_back({hour.hub(), zone, price, amount, 0});
    }
    for (; lines > 0; lines--) {
        int from = take(1), to = take(1);
        hour.lines.push_back({from, to, 0, take(3), 0});
    }
    return true;
}

// The flow that costs least, and so is worth most: LEMON's work.
static bool solve(Hour& hour) {
    Graph graph;
    graph.reserveNode(hour.zones + 1);
    graph.reserveArc(hour.buys.size() + hour.sells.size() + hour.lines.size());
    for (int node = 0; node <= hour.zones; node++) graph.addNode();
    Graph::ArcMap<Number> limit(graph), cost(graph);
    auto lists = {&hour.buys, &hour.sells, &hour.lines};
    for (auto list : lists)
        for (const Arc& arc : *list) {
            Graph::Arc added = graph.addArc(graph.nodeFromId(arc.tail), graph.nodeFromId(arc.head));
            limit[added] = arc.limit;
            cost[added] = arc.cost;
        }
    Simplex simplex(graph);
    if (simplex.upperMap(limit).costMap(cost).run() != Simplex::OPTIMAL) return false;
    int number = 0;
    for (auto list : lists)
        for (Arc& arc : *list) arc.flow = simplex.flow(graph.arcFromId(number++));
    return true;
}

// The lowest prices that settle the flow: a bid that could take or give back a unit holds up its zone's price, then a line
// that is not full the price where it begins, and a line in use the price where it ends.
static std::vector<Number> lowest_prices(const Hour& hour) {
    std::vector<Number> prices(hour.zones, 0);
    for (const Arc& buy : hour.buys)
        if (buy.flow < buy.limit) prices[buy.tail] = std::max(prices[buy.tail], -buy.cost);
    for (const Arc& sell : hour.sells)
        if (sell.flow > 0) prices[sell.head] = std::max(prices[sell.head], sell.cost);
    for (bool again = true; again;) {
        again = false;
        for (const Arc& line : hour.lines) {
            Number &from = prices[line.tail], &to = prices[line.head];
            if (line.flow < line.limit && from < to) from = to, again = true;
            if (line.flow > 0 && to < from) to = from, again = true;
        }
    }
    return prices;
}

static Number money(Number price) { return price - 50000; }

static void print(const Hour& hour, const std::vector<Number>& prices) {
    Number worth = 0;
    for (const Arc& buy : hour.buys) worth -= buy.cost * buy.flow;
    for (const Arc& sell : hour.sells) worth -= sell.cost * sell.flow;
    printf("worth %lld pushes 0\n", worth);
    for (int zone = 0; zone < hour.zones; zone++) {
        Number price = money(prices[zone]), size = llabs(price);
        printf("zone %d price %s%lld.%02lld\n", zone, price < 0 ? "-" : "", size / 100, size % 100);
    }
    int number = 0;
    for (const Arc& buy : hour.buys) printf("buy %d has %lld pays %lld\n", number++, buy.flow, money(prices[buy.tail]) * buy.flow);
    number = 0;
    for (const Arc& sell : hour.sells) printf("sell %d has %lld gets %lld\n", number++, sell.flow, money(prices[sell.head]) * sell.flow);
    number = 0;
    for (const Arc& line : hour.lines)
        printf("line %d carries %lld earns %lld\n", number++, line.flow, (prices[line.head] - prices[line.tail]) * line.flow);
}

int main(int count, char** words) {
    Hour hour;
    if (count != 2 || !read_hour(words[1], hour)) {
        fprintf(stderr, "peer: no hour: peer HOUR\n");
        return 1;
    }
    if (!solve(hour)) return 1;
    print(hour, lowest_prices(hour));
}
