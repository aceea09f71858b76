/* What a settle has to do at the least: a plain program that brings a network from nothing to rest.

   It has the nodes of `overlay run`, which are the configuration node, control nodes and agents, with the same sessions and
   the same rounds. They tell each other the same messages, spelled as docs/FORMATS.md says: BGP between control nodes,
   records of JSON elsewhere. Each message is written into the link, read again at the node that takes it, and applied to
   what that node holds. It is as quick as plain C++ is, and no more careful than that asks: a network that settles from
   nothing takes nothing back, so nothing here drops what was told, and a configuration is not checked but taken to be
   valid. Chains are not known.

   usage: settle_floor [rounds] [tables] [figures] < DOCUMENT

   DOCUMENT is one of `run` whose events are none or one settle; where it has no member `events` it is settled too. Prints
   the answer of the settle as `run` does. These words ask for more lines, which follow in this order:

   - rounds: at the beginning of each round, of each direction in which something is in flight, the number of the round, the
     two nodes, how many messages there are, and how many octets;
   - tables: the lines of control nodes and of agents, as `compile` prints them;
   - figures: all messages and their octets, the rounds, and the processor seconds from the first connection to the last
     round.

   Stops with status 1, and a sentence, at a document with chains, and at whatever it does not know. */
#include <algorithm>
#include <array>
#include <charconv>
#include <cstdint>
#include <cstdio>
#include <cstdlib>
#include <ctime>
#include <deque>
#include <map>
#include <optional>
#include <string>
#include <string_view>
#include <tuple>
#include <unordered_map>
#include <utility>
#include <vector>

namespace {

[[noreturn]] void stop(const char *why) {
    std::fprintf(stderr, "settle_floor: %s\n", why);
    std::exit(1);
}

// Values that nodes tell each other

struct Address {
    uint32_t number = 0;

    bool operator==(Address other) const { return number == other.number; }
};

struct Prefix {
    Address address;
    uint8_t length = 0;

    /* By address, then by length. */
    bool operator<(Prefix other) const { return place() < other.place(); }
    uint64_t place() const { return uint64_t{address.number} << 8 | length; }
};

struct PortRange {
    uint16_t least = 0, greatest = 0;
};

constexpr uint16_t any_protocol = 256;

/* An entry of an access list, which is a rule in one direction. */
struct Entry {
    uint16_t protocol = any_protocol;
    PortRange source_ports, destination_ports;
    bool passes = false;
    uint16_t sequence = 0, position = 0;
};

struct AccessList {
    std::vector<Prefix> subnets;
    std::vector<Entry> entries;
};

struct Port {
    uint32_t number = 0;
    uint16_t instance = 0;
    Address address, node;

    uint32_t label() const { return 16 + number; }
    Prefix prefix() const { return {address, 32}; }
};

/* Two instances: where packets come from, and where they go. */
using Pair = std::pair<uint16_t, uint16_t>;

struct Route {
    Address next_hop;
    uint32_t label = 0;

    bool operator==(Route other) const { return next_hop == other.next_hop && label == other.label; }
};

/* A row of a table, which is the least of its paths. */
struct Row {
    Route route;
    uint64_t distinguisher = 0;

    bool operator<(const Row &other) const { return place() < other.place(); }
    std::tuple<uint32_t, uint32_t, uint64_t> place() const { return {route.next_hop.number, route.label, distinguisher}; }
};

/* A distinguisher of type 1 (RFC 4364, section 4.2). */
uint64_t distinguisher(Address node, uint16_t instance) {
    return uint64_t{1} << 48 | uint64_t{node.number} << 16 | instance;
}

/* A route target, of type 0x00 (RFC 4360, section 4) or, for large numbers of systems, 0x02 (RFC 5668, section 2). */
uint64_t route_target(uint32_t autonomous_system, uint16_t instance) {
    if (autonomous_system <= 65534)
        return uint64_t{0x0002} << 48 | uint64_t{autonomous_system} << 32 | (8000000u + instance);
    return uint64_t{0x0202} << 48 | uint64_t{autonomous_system} << 16 | instance;
}

// Text and octets

/* Text that grows, of records and of tables. */
class Text {
public:
    std::string octets;

    Text &operator<<(std::string_view words) {
        octets.append(words);
        return *this;
    }
    Text &operator<<(uint32_t number) {
        char digits[10];
        octets.append(digits, std::to_chars(digits, digits + sizeof digits, number).ptr);
        return *this;
    }
    Text &operator<<(Address address) {
        const uint32_t number = address.number;
        return *this << (number >> 24) << "." << (number >> 16 & 255) << "." << (number >> 8 & 255) << "."
                     << (number & 255);
    }
    Text &operator<<(Prefix prefix) { return *this << prefix.address << "/" << uint32_t{prefix.length}; }

    /* Items with commas between them. */
    template <class Items, class Tell> Text &joined(const Items &items, Tell tell) {
        bool first = true;
        for (const auto &item : items) {
            if (!first) *this << ",";
            tell(item);
            first = false;
        }
        return *this;
    }
};

void set_big_endian(std::string &octets, size_t at, size_t count, uint64_t number) {
    for (size_t place = at + count; place-- > at; number >>= 8) octets[place] = static_cast<char>(number);
}

void append_big_endian(std::string &octets, size_t count, uint64_t number) {
    octets.append(count, '\0');
    set_big_endian(octets, octets.size() - count, count, number);
}

/* Octets that are read from their front. */
class Octets {
public:
    explicit Octets(std::string_view octets) : rest(octets) {}

    bool empty() const { return rest.empty(); }
    std::string_view part(size_t count) {
        if (count > rest.size()) stop("a message is cut");
        const std::string_view front = rest.substr(0, count);
        rest.remove_prefix(count);
        return front;
    }
    uint64_t number(size_t count) {
        uint64_t number = 0;
        for (const char octet : part(count)) number = number << 8 | static_cast<uint8_t>(octet);
        return number;
    }

private:
    std::string_view rest;
};

/* JSON that is read from its front, value by value. Texts are taken as they stand, and one with an escape is not known. */
class Json {
public:
    explicit Json(std::string_view text) : rest(text) {}

    /* Calls `member` with each name; that is to read the value. */
    template <class Member> void object(Member member) {
        expect('{');
        if (took('}')) return;
        do {
            const std::string_view name = text();
            expect(':');
            member(name);
        } while (took(','));
        expect('}');
    }
    /* Calls `item` where each item begins; that is to read it. */
    template <class Item> void list(Item item) {
        expect('[');
        if (took(']')) return;
        do item();
        while (took(','));
        expect(']');
    }
    std::string_view text() {
        expect('"');
        const size_t length = rest.find_first_of("\"\\");
        if (length == std::string_view::npos || rest[length] == '\\') stop("a text has no end, or an escape");
        const std::string_view words = rest.substr(0, length);
        rest.remove_prefix(length + 1);
        return words;
    }
    template <class Number = uint32_t> Number number() {
        pass_blanks();
        return digits<Number>(rest);
    }
    Address address() {
        std::string_view words = text();
        const Address address = read_address(words);
        if (!words.empty()) stop("this is no address");
        return address;
    }
    Prefix prefix() {
        std::string_view words = text();
        const Address address = read_address(words);
        separator(words, '/');
        const auto length = digits<uint8_t>(words);
        if (!words.empty() || length > 32) stop("this is no prefix");
        return {address, length};
    }
    /* Two numbers with a comma between them. */
    PortRange port_range() {
        const auto least = number<uint16_t>();
        expect(',');
        return {least, number<uint16_t>()};
    }
    bool is_text() {
        pass_blanks();
        return !rest.empty() && rest.front() == '"';
    }
    void expect(char wanted) {
        if (!took(wanted)) stop("a text is not of the form that is read here");
    }
    /* Passes over a value, whatever it is. */
    void skip() {
        if (is_text()) text();
        else if (!rest.empty() && rest.front() == '{') object([this](std::string_view) { skip(); });
        else if (!rest.empty() && rest.front() == '[') list([this] { skip(); });
        else rest.remove_prefix(std::min(rest.size(), rest.find_first_of(",]} \t\r\n")));
    }
    void end() {
        pass_blanks();
        if (!rest.empty()) stop("something stands behind a value");
    }

private:
    std::string_view rest;

    void pass_blanks() {
        while (!rest.empty() &&
               (rest.front() == ' ' || rest.front() == '\n' || rest.front() == '\r' || rest.front() == '\t'))
            rest.remove_prefix(1);
    }
    bool took(char wanted) {
        pass_blanks();
        if (rest.empty() || rest.front() != wanted) return false;
        rest.remove_prefix(1);
        return true;
    }
    template <class Number> static Number digits(std::string_view &words) {
        Number number = 0;
        const auto [end, fault] = std::from_chars(words.data(), words.data() + words.size(), number);
        if (fault != std::errc()) stop("a number is none, or is too large");
        words.remove_prefix(static_cast<size_t>(end - words.data()));
        return number;
    }
    static void separator(std::string_view &words, char wanted) {
        if (words.empty() || words.front() != wanted) stop("this is no address and no prefix");
        words.remove_prefix(1);
    }
    static Address read_address(std::string_view &words) {
        uint32_t number = digits<uint8_t>(words);
        for (int octet = 1; octet < 4; ++octet) {
            separator(words, '.');
            number = number << 8 | digits<uint8_t>(words);
        }
        return {number};
    }
};

// Links

enum class Framing { record, bgp };

/* One direction of a session, with what is in flight there. */
class Link {
public:
    explicit Link(Framing framing) : framing(framing) {}

    /* Sends a record: the length in four octets, and the JSON that `write` appends. */
    template <class Write> void send_record(Write write) {
        const size_t start = text.octets.size();
        text.octets.append(4, '\0');
        write(text);
        set_big_endian(text.octets, start, 4, text.octets.size() - start - 4);
        count_from(start);
    }
    /* Sends a BGP message: the marker, the length, the type, and the body that `write` appends (RFC 4271, section 4.1). */
    template <class Write> void send_bgp(uint8_t type, Write write) {
        const size_t start = text.octets.size();
        text.octets.append(16, '\xff');
        text.octets.append(2, '\0');
        append_big_endian(text.octets, 1, type);
        write(text.octets);
        set_big_endian(text.octets, start + 16, 2, text.octets.size() - start);
        count_from(start);
    }
    /* Takes the first message. Its octets stand until `drop_taken`. */
    std::string_view take() {
        const std::string_view rest = std::string_view(text.octets).substr(octets_taken);
        Octets head(rest);
        if (framing == Framing::bgp) head.part(16);
        const size_t length = framing == Framing::bgp ? head.number(2) : 4 + head.number(4);
        if (length > rest.size()) stop("a message is cut");
        octets_taken += length;
        ++messages_taken;
        return rest.substr(0, length);
    }
    void drop_taken() {
        text.octets.erase(0, octets_taken);
        octets_taken = 0;
    }
    uint64_t messages_in_flight() const { return messages_sent - messages_taken; }
    uint64_t octets_in_flight() const { return text.octets.size() - octets_taken; }
    uint64_t messages() const { return messages_sent; }
    uint64_t octets() const { return octets_sent; }

private:
    Framing framing;
    Text text;
    size_t octets_taken = 0;
    uint64_t messages_sent = 0, messages_taken = 0, octets_sent = 0;

    void count_from(size_t start) {
        ++messages_sent;
        octets_sent += text.octets.size() - start;
    }
};

// Records

enum class Operation { hello, instance, port, access_list, publish, subscribe, route };

/* What a record says. Members that its operation does not have are those of an earlier record. */
struct Record {
    Operation operation = Operation::hello;
    uint16_t instance = 0;
    std::vector<uint16_t> imports;
    Port port;
    Pair pair;
    AccessList access_list;
    Prefix prefix;
    Route route;
};

void send_hello(Link &link, std::string_view name) {
    link.send_record([&](Text &text) { text << "{\"name\":\"" << name << "\",\"op\":\"hello\"}"; });
}

void send_instance(Link &link, uint16_t instance, const std::vector<uint16_t> &imports) {
    link.send_record([&](Text &text) {
        text << "{\"imports\":[";
        text.joined(imports, [&](uint16_t import) { text << import; });
        text << "],\"instance\":" << instance << ",\"op\":\"instance\"}";
    });
}

void send_port(Link &link, const Port &port) {
    link.send_record([&](Text &text) {
        text << "{\"address\":\"" << port.address << "\",\"instance\":" << port.instance << ",\"node\":\"" << port.node
             << "\",\"op\":\"port\",\"port\":" << port.number << "}";
    });
}

void write_entry(Text &text, const Entry &entry) {
    text << "[" << entry.protocol << "," << entry.source_ports.least << "," << entry.source_ports.greatest << ","
         << entry.destination_ports.least << "," << entry.destination_ports.greatest
         << (entry.passes ? ",\"pass\"," : ",\"deny\",") << entry.sequence << "," << entry.position << "]";
}

void send_access_list(Link &link, Pair pair, const AccessList &list) {
    link.send_record([&](Text &text) {
        text << "{\"from\":" << pair.first << ",\"op\":\"acl\",\"rules\":[";
        text.joined(list.entries, [&](const Entry &entry) { write_entry(text, entry); });
        text << "],\"subnets\":[";
        text.joined(list.subnets, [&](Prefix subnet) { text << "\"" << subnet << "\""; });
        text << "],\"to\":" << pair.second << "}";
    });
}

void send_publish(Link &link, const Port &port) {
    link.send_record([&](Text &text) {
        text << "{\"instance\":" << port.instance << ",\"label\":" << port.label() << ",\"op\":\"publish\",\"prefix\":\""
             << port.prefix() << "\"}";
    });
}

void send_subscribe(Link &link, uint16_t instance) {
    link.send_record([&](Text &text) { text << "{\"instance\":" << instance << ",\"op\":\"subscribe\"}"; });
}

void send_route(Link &link, uint16_t instance, Prefix prefix, Route route) {
    link.send_record([&](Text &text) {
        text << "{\"instance\":" << instance << ",\"label\":" << route.label << ",\"next_hop\":\"" << route.next_hop
             << "\",\"op\":\"route\",\"prefix\":\"" << prefix << "\"}";
    });
}

Operation operation_of(std::string_view word) {
    if (word == "route") return Operation::route;
    if (word == "acl") return Operation::access_list;
    if (word == "port") return Operation::port;
    if (word == "publish") return Operation::publish;
    if (word == "subscribe") return Operation::subscribe;
    if (word == "instance") return Operation::instance;
    if (word == "hello") return Operation::hello;
    stop("a record's operation is not known");
}

Entry read_entry(Json &json) {
    Entry entry;
    json.expect('[');
    entry.protocol = json.number<uint16_t>();
    json.expect(',');
    entry.source_ports = json.port_range();
    json.expect(',');
    entry.destination_ports = json.port_range();
    json.expect(',');
    entry.passes = json.text() == "pass";
    json.expect(',');
    entry.sequence = json.number<uint16_t>();
    json.expect(',');
    entry.position = json.number<uint16_t>();
    json.expect(']');
    return entry;
}

/* Reads a record, its members in any order, into one that is used again. */
void read_record(std::string_view message, Record &record) {
    Json json(message.substr(4));
    json.object([&](std::string_view member) {
        if (member == "op") record.operation = operation_of(json.text());
        else if (member == "instance") record.instance = json.number<uint16_t>();
        else if (member == "label") record.route.label = json.number();
        else if (member == "next_hop") record.route.next_hop = json.address();
        else if (member == "prefix") record.prefix = json.prefix();
        else if (member == "address") record.port.address = json.address();
        else if (member == "node") record.port.node = json.address();
        else if (member == "port") record.port.number = json.number();
        else if (member == "from") record.pair.first = json.number<uint16_t>();
        else if (member == "to") record.pair.second = json.number<uint16_t>();
        else if (member == "imports") {
            record.imports.clear();
            json.list([&] { record.imports.push_back(json.number<uint16_t>()); });
        } else if (member == "subnets") {
            record.access_list.subnets.clear();
            json.list([&] { record.access_list.subnets.push_back(json.prefix()); });
        } else if (member == "rules") {
            record.access_list.entries.clear();
            json.list([&] { record.access_list.entries.push_back(read_entry(json)); });
        } else json.skip();
    });
    json.end();
    record.port.instance = record.instance;
}

// BGP messages

enum MessageType : uint8_t { open_message = 1, update_message = 2, keepalive_message = 4 };

/* The OPEN of a control node: AFI 1 with SAFI 128 (RFC 4760), and a number of four octets (RFC 6793). */
void send_open(Link &link, uint32_t autonomous_system, Address identifier) {
    link.send_bgp(open_message, [&](std::string &body) {
        append_big_endian(body, 1, 4);
        append_big_endian(body, 2, autonomous_system <= 65535 ? autonomous_system : 23456);
        append_big_endian(body, 2, 0);
        append_big_endian(body, 4, identifier.number);
        body.append("\x0e\x02\x0c\x01\x04\x00\x01\x00\x80\x41\x04", 11);
        append_big_endian(body, 4, autonomous_system);
    });
}

void send_keepalive(Link &link) {
    link.send_bgp(keepalive_message, [](std::string &) {});
}

/* What an UPDATE of one VPN-IPv4 route says. */
struct Update {
    Row row;
    Prefix prefix;
    uint64_t target = 0;
};

void send_update(Link &link, const Update &update) {
    link.send_bgp(update_message, [&](std::string &body) {
        const size_t octets = (update.prefix.length + 7u) / 8;
        append_big_endian(body, 2, 0);
        append_big_endian(body, 2, 14 + 3 + 17 + 12 + octets + 3 + 8);
        body.append("\x40\x01\x01\x00\x40\x02\x00\x40\x05\x04\x00\x00\x00\x64\x80\x0e", 16);
        append_big_endian(body, 1, 17 + 12 + octets);
        body.append("\x00\x01\x80\x0c\x00\x00\x00\x00\x00\x00\x00\x00", 12);
        append_big_endian(body, 4, update.row.route.next_hop.number);
        append_big_endian(body, 2, 88u + update.prefix.length);  // the reserved octet, and the length of what follows
        append_big_endian(body, 3, update.row.route.label << 4 | 1);
        append_big_endian(body, 8, update.row.distinguisher);
        append_big_endian(body, octets, uint64_t{update.prefix.address.number} >> (32 - 8 * octets));
        body.append("\xc0\x10\x08", 3);
        append_big_endian(body, 8, update.target);
    });
}

/* The number of the system that an OPEN says, in its capability 65 or in its head. */
uint32_t read_open(Octets body, Address identifier) {
    if (body.number(1) != 4) stop("an OPEN is of another version");
    auto autonomous_system = static_cast<uint32_t>(body.number(2));
    body.number(2);
    if (body.number(4) != identifier.number) stop("an OPEN is of another speaker");
    Octets parameters(body.part(body.number(1)));
    while (!parameters.empty()) {
        if (parameters.number(1) != 2) stop("a parameter of an OPEN is not known");
        Octets capabilities(parameters.part(parameters.number(1)));
        while (!capabilities.empty()) {
            const uint64_t code = capabilities.number(1);
            Octets value(capabilities.part(capabilities.number(1)));
            if (code == 65) autonomous_system = static_cast<uint32_t>(value.number(4));
        }
    }
    return autonomous_system;
}

/* Reads MP_REACH_NLRI (RFC 4760, section 3) of one labeled VPN-IPv4 route. */
void read_reachable(Octets value, Update &update) {
    if (value.number(3) != 0x000180 || value.number(1) != 12) stop("routes of another family");
    value.part(8);
    update.row.route.next_hop = {static_cast<uint32_t>(value.number(4))};
    value.part(1);
    const uint64_t bits = value.number(1);
    if (bits < 88 || bits > 120) stop("a route has another length");
    update.prefix.length = static_cast<uint8_t>(bits - 88);
    update.row.route.label = static_cast<uint32_t>(value.number(3) >> 4);
    update.row.distinguisher = value.number(8);
    const size_t octets = (update.prefix.length + 7u) / 8;
    update.prefix.address = {static_cast<uint32_t>(value.number(octets) << (32 - 8 * octets))};
    if (!value.empty()) stop("an UPDATE has several routes");
}

Update read_update(Octets body) {
    Update update;
    body.part(body.number(2));
    Octets attributes(body.part(body.number(2)));
    if (!body.empty()) stop("an UPDATE has plain routes");
    while (!attributes.empty()) {
        const uint64_t flags = attributes.number(1), type = attributes.number(1);
        Octets value(attributes.part(attributes.number(flags & 0x10 ? 2 : 1)));
        if (type == 14) read_reachable(value, update);
        else if (type == 16) update.target = value.number(8);
        else if (type != 1 && type != 2 && type != 5) stop("an attribute is not known");
    }
    return update;
}

// Nodes

class Node {
public:
    const std::string_view name;
    std::vector<Link *> links;  // by session, towards the other end

    explicit Node(std::string_view name) : name(name) {}
    virtual ~Node() = default;
    /* Opens this end of a session: greets the other end, and tells it what there is to tell. */
    virtual void open(size_t session) = 0;
    /* Takes a message, applies it, and tells what follows of it, on each session in ascending number. */
    virtual void take(size_t session, std::string_view message) = 0;

protected:
    Record record;  // the one that was read last
};

/* The low-level objects of a configuration, each kind in the order of its keys. */
struct LowLevelObjects {
    std::vector<std::pair<uint16_t, std::vector<uint16_t>>> instances;  // with what they import
    std::vector<Port> ports;
    std::vector<std::pair<Pair, AccessList>> access_lists;
};

class ConfigurationNode : public Node {
public:
    explicit ConfigurationNode(LowLevelObjects objects) : Node("config"), objects(std::move(objects)) {}

    void open(size_t session) override {
        Link &link = *links[session];
        send_hello(link, name);
        for (const auto &[instance, imports] : objects.instances) send_instance(link, instance, imports);
        for (const Port &port : objects.ports) send_port(link, port);
        for (const auto &[pair, list] : objects.access_lists) send_access_list(link, pair, list);
    }
    void take(size_t, std::string_view message) override {
        read_record(message, record);
        if (record.operation != Operation::hello) stop("a control node tells the configuration node nothing");
    }

private:
    LowLevelObjects objects;
};

/* A control node. Its sessions are the feed, then those with its peers, then those with agents. */
class ControlNode : public Node {
public:
    ControlNode(std::string_view name, Address address, uint32_t autonomous_system)
        : Node(name), address(address), autonomous_system(autonomous_system) {}

    void add_peer(Address peer) { peers.emplace_back().address = peer; }
    void add_agent(Address node) { agents.emplace_back().node = node; }

    void open(size_t session) override {
        if (session >= 1 && session <= peers.size()) send_open(*links[session], autonomous_system, address);
        else send_hello(*links[session], name);
    }
    void take(size_t session, std::string_view message) override {
        if (session == 0) take_object(message);
        else if (session <= peers.size()) take_from_peer(session, message);
        else take_from_agent(session, message);
    }
    void print(Text &text) const {
        for (const auto &[number, instance] : instances)
            for (const auto &[prefix, row] : instance.table) {
                const auto owner = static_cast<uint32_t>(row.distinguisher >> 16);
                text << "control " << name << " table " << number << " " << prefix << " " << Address{owner} << ":"
                     << static_cast<uint32_t>(row.distinguisher & 65535) << " " << row.route.next_hop << " "
                     << row.route.label << "\n";
            }
    }

private:
    struct Instance {
        uint16_t number = 0;
        std::vector<uint16_t> imports;
        std::map<Prefix, Row> table;
    };
    struct Peer {
        Address address;
        bool established = false;
        std::map<std::pair<uint64_t, Prefix>, Route> routes;  // what it told, by distinguisher and prefix
    };
    struct AgentSession {
        Address node;
        std::vector<bool> has_port = std::vector<bool>(65536);    // by instance
        std::vector<bool> subscribed = std::vector<bool>(65536);  // by instance
        std::map<std::pair<uint16_t, Prefix>, uint32_t> publications;
    };

    Address address;
    uint32_t autonomous_system;
    std::vector<Peer> peers;
    std::vector<AgentSession> agents;
    std::map<uint16_t, Instance> instances;
    std::map<uint32_t, Port> ports;  // by label
    std::map<Pair, AccessList> access_lists;
    std::unordered_map<uint64_t, std::vector<Instance *>> importers;  // of each route target, ascending
    std::vector<Instance *> changed;  // the instances of which the path that was added last changed a row

    Link &link_of_peer(size_t place) { return *links[1 + place]; }
    Link &link_of_agent(size_t place) { return *links[1 + peers.size() + place]; }

    /* Takes an object of the feed. They come in the order of their keys: instances, ports, access lists. */
    void take_object(std::string_view message) {
        read_record(message, record);
        if (record.operation == Operation::instance) add_instance();
        else if (record.operation == Operation::port) add_port();
        else if (record.operation == Operation::access_list) add_access_list();
        else if (record.operation != Operation::hello) stop("the feed has objects alone");
    }
    void add_instance() {
        Instance &instance = instances[record.instance];
        instance = {record.instance, record.imports, {}};
        for (const uint16_t import : instance.imports)
            importers[route_target(autonomous_system, import)].push_back(&instance);
    }
    void add_port() {
        const Port &port = ports[record.port.label()] = record.port;
        for (size_t place = 0; place < agents.size(); ++place)
            if (agents[place].node == port.node) {
                agents[place].has_port[port.instance] = true;
                send_port(link_of_agent(place), port);
            }
    }
    void add_access_list() {
        const AccessList &list = access_lists[record.pair] = std::move(record.access_list);
        for (size_t place = 0; place < agents.size(); ++place)
            if (agents[place].has_port[record.pair.first]) send_access_list(link_of_agent(place), record.pair, list);
    }

    void take_from_peer(size_t session, std::string_view message) {
        Peer &peer = peers[session - 1];
        Octets octets(message);
        for (const char octet : octets.part(16))
            if (octet != '\xff') stop("a BGP message has another marker");
        octets.number(2);
        const uint64_t type = octets.number(1);
        if (type == open_message) {
            if (read_open(octets, peer.address) != autonomous_system) stop("a peer is of another autonomous system");
            send_keepalive(*links[session]);
        } else if (type == keepalive_message) {
            peer.established = true;
            tell_own_routes(*links[session]);
        } else if (type == update_message) {
            const Update update = read_update(octets);
            peer.routes[{update.row.distinguisher, update.prefix}] = update.row.route;
            add_path(update);
        } else stop("a BGP message is of another type");
    }
    void tell_own_routes(Link &link) {
        for (const AgentSession &agent : agents)
            for (const auto &[published, label] : agent.publications)
                send_update(link, own_route(agent.node, published.first, published.second, label));
    }
    Update own_route(Address node, uint16_t instance, Prefix prefix, uint32_t label) const {
        return {{{node, label}, distinguisher(node, instance)}, prefix, route_target(autonomous_system, instance)};
    }

    void take_from_agent(size_t session, std::string_view message) {
        AgentSession &agent = agents[session - 1 - peers.size()];
        read_record(message, record);
        if (record.operation == Operation::publish) {
            if (!instances.count(record.instance)) stop("an instance is not known yet");
            agent.publications[{record.instance, record.prefix}] = record.route.label;
            const Update update = own_route(agent.node, record.instance, record.prefix, record.route.label);
            for (size_t place = 0; place < peers.size(); ++place)
                if (peers[place].established) send_update(link_of_peer(place), update);
            add_path(update);
        } else if (record.operation == Operation::subscribe) {
            agent.subscribed[record.instance] = true;
            for (const auto &[prefix, row] : instances[record.instance].table)
                send_route(*links[session], record.instance, prefix, row.route);
        } else if (record.operation != Operation::hello) stop("an agent publishes and subscribes");
    }

    /* Adds a path to each table that imports it, and tells the rows that are others now to those that subscribed them. */
    void add_path(const Update &path) {
        changed.clear();
        for (Instance *instance : importers[path.target]) {
            const auto [at, fresh] = instance->table.try_emplace(path.prefix, path.row);
            const bool told = fresh || (path.row < at->second && !(path.row.route == at->second.route));
            at->second = std::min(at->second, path.row);
            if (told) changed.push_back(instance);
        }
        for (size_t place = 0; place < agents.size(); ++place)
            for (const Instance *instance : changed)
                if (agents[place].subscribed[instance->number])
                    send_route(link_of_agent(place), instance->number, path.prefix, instance->table.at(path.prefix).route);
    }
};

/* Prints the lines of an access list, each with the same front. */
void print_access_list(Text &text, const std::string &front, Pair pair, const AccessList &list) {
    text << front << "acl " << pair.first << " " << pair.second << " subnets " << (list.subnets.empty() ? "-" : "");
    text.joined(list.subnets, [&](Prefix subnet) { text << subnet; }) << "\n";
    for (const Entry &entry : list.entries) {
        text << front << "acl " << pair.first << " " << pair.second << " rule " << entry.sequence << "/" << entry.position
             << " ";
        if (entry.protocol == any_protocol) text << "any";
        else text << entry.protocol;
        for (const PortRange range : {entry.source_ports, entry.destination_ports})
            text << " " << range.least << "-" << range.greatest;
        text << (entry.passes ? " pass\n" : " deny\n");
    }
}

/* An agent. Its sessions are those with the control nodes that it lists, in that order. */
class Agent : public Node {
public:
    Agent(std::string_view name, size_t controllers) : Node(name), sessions(controllers) { links.resize(controllers); }

    void open(size_t session) override { send_hello(*links[session], name); }

    void take(size_t session, std::string_view message) override {
        read_record(message, record);
        Session &held = sessions[session];
        if (record.operation == Operation::hello) {
            held.up = true;
        } else if (record.operation == Operation::port) {
            const Port &port = held.ports[record.port.label()] = record.port;
            if (session == slice_in_use()) publish(port);
        } else if (record.operation == Operation::access_list) {
            held.access_lists[record.pair] = std::move(record.access_list);
        } else if (record.operation == Operation::route) {
            routes[record.instance][record.prefix][session] = record.route;
        } else stop("an agent is told its slice and routes");
    }
    void print(Text &text) const {
        const Session &slice = sessions[slice_in_use()];
        const std::string front = "agent " + std::string(name) + " ";
        for (const auto &[label, port] : slice.ports)
            text << front << "label " << label << " port " << port.number << " instance " << port.instance << "\n";
        for (const auto &[pair, list] : slice.access_lists) print_access_list(text, front, pair, list);
        for (const auto &[instance, table] : routes)
            for (const auto &[prefix, told] : table) {
                const Route route = told[0] ? *told[0] : *told[1];
                text << front << "table " << instance << " " << prefix << " " << route.next_hop << " " << route.label
                     << "\n";
            }
    }

private:
    struct Session {
        bool up = false;
        std::map<uint32_t, Port> ports;  // by label
        std::map<Pair, AccessList> access_lists;
    };
    /* What each session told of one prefix. The route is that of the first session that has one. */
    using Told = std::array<std::optional<Route>, 2>;

    std::vector<Session> sessions;
    std::map<uint16_t, std::map<Prefix, Told>> routes;  // of each instance that is needed

    /* The first session that is up. All greetings come before anything else, so that it is the first that is listed. */
    size_t slice_in_use() const {
        if (!sessions.front().up) stop("the first session of an agent is not up yet");
        return 0;
    }
    /* Tells all control nodes of a port and, where it is the first in its instance, subscribes that. */
    void publish(const Port &port) {
        const bool needed_before = !routes.try_emplace(port.instance).second;
        for (Link *link : links) {
            send_publish(*link, port);
            if (!needed_before) send_subscribe(*link, port.instance);
        }
    }
};

// Documents

struct ControllerLine {
    std::string_view name;
    Address address;
};

struct ComputeNodeLine {
    std::string_view name;
    Address address;
    std::vector<std::string_view> controllers;
};

struct NetworkLine {
    std::string_view name;
    uint16_t number = 0;
    std::vector<Prefix> subnets;
    std::vector<std::string_view> policies;
};

struct PortLine {
    uint32_t number = 0;
    std::string_view network, node;
    Address address;
};

struct Rule {
    bool both_ways = false;
    std::string_view source, destination;
    Entry forward;

    bool fits(const NetworkLine &from, const NetworkLine &to) const {
        return (source == "any" || source == from.name) && (destination == "any" || destination == to.name);
    }
    Entry mirrored() const {
        Entry entry = forward;
        std::swap(entry.source_ports, entry.destination_ports);
        return entry;
    }
};

struct PolicyLine {
    std::string_view name;
    uint16_t sequence = 0;
    std::vector<Rule> rules;
};

struct Document {
    uint32_t autonomous_system = 0;
    std::vector<ControllerLine> controllers;
    std::vector<ComputeNodeLine> nodes;
    std::vector<NetworkLine> networks;
    std::vector<PortLine> ports;
    std::vector<PolicyLine> policies;
    bool settles = true;
};

/* Reads a list of objects of one kind; `read` reads the value of a member into its object. */
template <class Object>
void read_objects(Json &json, std::vector<Object> &objects, void (*read)(Json &, Object &, std::string_view member)) {
    json.list([&] {
        Object &object = objects.emplace_back();
        json.object([&](std::string_view member) { read(json, object, member); });
    });
}

void read_controller(Json &json, ControllerLine &controller, std::string_view member) {
    if (member == "name") controller.name = json.text();
    else if (member == "address") controller.address = json.address();
    else json.skip();
}

void read_compute_node(Json &json, ComputeNodeLine &node, std::string_view member) {
    if (member == "name") node.name = json.text();
    else if (member == "address") node.address = json.address();
    else if (member == "controllers") json.list([&] { node.controllers.push_back(json.text()); });
    else json.skip();
}

void read_topology(Json &json, Document &document) {
    json.object([&](std::string_view part) {
        if (part == "as") document.autonomous_system = json.number();
        else if (part == "controllers") read_objects(json, document.controllers, read_controller);
        else if (part == "nodes") read_objects(json, document.nodes, read_compute_node);
        else json.skip();
    });
}

void read_rule(Json &json, Rule &rule, std::string_view member) {
    if (member == "direction") rule.both_ways = json.text() == "<>";
    else if (member == "source") rule.source = json.text();
    else if (member == "destination") rule.destination = json.text();
    else if (member == "protocol") {
        if (!json.is_text()) rule.forward.protocol = json.number<uint8_t>();
        else if (json.text() != "any") stop("a protocol is a number or any");
    } else if (member == "source_ports" || member == "destination_ports") {
        json.expect('[');
        (member == "source_ports" ? rule.forward.source_ports : rule.forward.destination_ports) = json.port_range();
        json.expect(']');
    } else if (member == "action") {
        const std::string_view action = json.text();
        if (action == "chain") stop("a rule leads through a chain, and chains are not known here");
        rule.forward.passes = action == "pass";
    } else json.skip();
}

void read_policy(Json &json, PolicyLine &policy, std::string_view member) {
    if (member == "name") policy.name = json.text();
    else if (member == "sequence") policy.sequence = json.number<uint16_t>();
    else if (member == "rules") read_objects(json, policy.rules, read_rule);
    else json.skip();
}

void read_network(Json &json, NetworkLine &network, std::string_view member) {
    if (member == "name") network.name = json.text();
    else if (member == "id") network.number = json.number<uint16_t>();
    else if (member == "subnets") json.list([&] { network.subnets.push_back(json.prefix()); });
    else if (member == "policies") json.list([&] { network.policies.push_back(json.text()); });
    else json.skip();
}

void read_port(Json &json, PortLine &port, std::string_view member) {
    if (member == "id") port.number = json.number();
    else if (member == "network") port.network = json.text();
    else if (member == "address") port.address = json.address();
    else if (member == "node") port.node = json.text();
    else json.skip();
}

void read_configuration(Json &json, Document &document) {
    json.object([&](std::string_view part) {
        if (part == "networks") read_objects(json, document.networks, read_network);
        else if (part == "ports") read_objects(json, document.ports, read_port);
        else if (part == "policies") read_objects(json, document.policies, read_policy);
        else if (part == "chains") json.list([] { stop("the configuration has chains, and these are not known here"); });
        else json.skip();
    });
}

Document read_document(std::string_view text) {
    Document document;
    Json json(text);
    json.object([&](std::string_view part) {
        if (part == "topology") read_topology(json, document);
        else if (part == "configuration") read_configuration(json, document);
        else if (part == "events") {
            size_t settles = 0;
            json.list([&] {
                if (!json.is_text() || json.text() != "settle" || ++settles > 1) stop("the events are none or one settle");
            });
            document.settles = settles == 1;
        } else json.skip();
    });
    json.end();
    for (PolicyLine &policy : document.policies)
        for (size_t place = 0; place < policy.rules.size(); ++place) {
            policy.rules[place].forward.sequence = policy.sequence;
            policy.rules[place].forward.position = static_cast<uint16_t>(place + 1);
        }
    return document;
}

/* The object of a list that has a name, as its place. */
template <class Objects> size_t place_of(const Objects &objects, std::string_view name) {
    const auto found =
        std::find_if(objects.begin(), objects.end(), [&](const auto &object) { return object.name == name; });
    if (found == objects.end()) stop("a name is of nothing");
    return static_cast<size_t>(found - objects.begin());
}

// Compiling

/* Whether two networks are related, and the access list from the one to the other. */
std::pair<bool, AccessList> between(const NetworkLine &from, const NetworkLine &to,
                                    const std::vector<const PolicyLine *> &policies) {
    bool related = false;
    AccessList list;
    list.subnets = to.subnets;
    std::sort(list.subnets.begin(), list.subnets.end());
    for (const PolicyLine *policy : policies)
        for (const Rule &rule : policy->rules) {
            const bool forwards = rule.fits(from, to), backwards = rule.fits(to, from);
            related = related || (rule.forward.passes && (forwards || backwards));
            if (forwards) list.entries.push_back(rule.forward);
            if (backwards && rule.both_ways) list.entries.push_back(rule.mirrored());
        }
    return {related, std::move(list)};
}

/* The policies that both of two networks attach, by their sequence. */
std::vector<const PolicyLine *> shared_policies(const std::vector<const PolicyLine *> &ascending, const NetworkLine &one,
                                                const NetworkLine &other) {
    const auto attaches = [](const NetworkLine &network, const PolicyLine *policy) {
        return std::find(network.policies.begin(), network.policies.end(), policy->name) != network.policies.end();
    };
    std::vector<const PolicyLine *> shared;
    for (const PolicyLine *policy : ascending)
        if (attaches(one, policy) && attaches(other, policy)) shared.push_back(policy);
    return shared;
}

LowLevelObjects compile(const Document &document) {
    std::vector<const NetworkLine *> networks;
    std::vector<const PolicyLine *> policies;
    for (const NetworkLine &network : document.networks) networks.push_back(&network);
    for (const PolicyLine &policy : document.policies) policies.push_back(&policy);
    std::sort(networks.begin(), networks.end(), [](auto one, auto other) { return one->number < other->number; });
    std::sort(policies.begin(), policies.end(), [](auto one, auto other) { return one->sequence < other->sequence; });

    LowLevelObjects objects;
    for (const NetworkLine *from : networks) {
        std::vector<uint16_t> imports;
        for (const NetworkLine *to : networks) {
            const bool same = from == to;
            auto [related, list] =
                between(*from, *to, same ? std::vector<const PolicyLine *>() : shared_policies(policies, *from, *to));
            if (!same && !related) continue;
            imports.push_back(to->number);
            objects.access_lists.push_back({{from->number, to->number}, std::move(list)});
        }
        objects.instances.push_back({from->number, std::move(imports)});
    }
    for (const PortLine &port : document.ports) {
        const uint16_t instance = document.networks[place_of(document.networks, port.network)].number;
        objects.ports.push_back(
            {port.number, instance, port.address, document.nodes[place_of(document.nodes, port.node)].address});
    }
    std::sort(objects.ports.begin(), objects.ports.end(),
              [](const Port &one, const Port &other) { return one.number < other.number; });
    return objects;
}

// The network

class Network {
public:
    explicit Network(const Document &document) : configuration(compile(document)) {
        for (const ControllerLine &controller : document.controllers)
            control_nodes.emplace_back(controller.name, controller.address, document.autonomous_system);
        for (const ComputeNodeLine &node : document.nodes) agents.emplace_back(node.name, node.controllers.size());
        join_control_nodes(document);
        join_agents(document);
    }

    /* One round, with nothing in flight; then all sessions are connected, and rounds follow while anything is in flight. */
    void settle() {
        rounds = 1;
        for (const Session &session : sessions) {
            session.earlier.node->open(session.earlier.session);
            session.later.node->open(session.later.session);
        }
        while (std::any_of(directions.begin(), directions.end(), is_busy)) round();
    }
    /* Has each round begin with lines of what is in flight. */
    void tell_rounds(Text &text) { told = &text; }
    uint32_t rounds_taken() const { return rounds; }
    unsigned long long messages() const { return sum(&Link::messages); }
    unsigned long long octets() const { return sum(&Link::octets); }
    void print(Text &text) const {
        for (const ControlNode &control_node : control_nodes) control_node.print(text);
        for (const Agent &agent : agents) agent.print(text);
    }

private:
    /* A node's end of a session. */
    struct End {
        Node *node;
        size_t session;
    };
    struct Session {
        End earlier, later;
    };
    struct Direction {
        Link link;
        End sender, taker;
    };

    ConfigurationNode configuration;
    std::deque<ControlNode> control_nodes;
    std::deque<Agent> agents;
    std::vector<Session> sessions;     // in the order of a round
    std::deque<Direction> directions;  // of each session from its earlier node to its later one, and back
    uint32_t rounds = 0;
    Text *told = nullptr;

    static bool is_busy(const Direction &direction) { return direction.link.messages_in_flight() != 0; }

    void join(End earlier, End later, Framing framing) {
        sessions.push_back({earlier, later});
        for (const auto &[from, to] : {std::pair{earlier, later}, std::pair{later, earlier}}) {
            directions.push_back({Link(framing), from, to});
            auto &links = from.node->links;
            links.resize(std::max(links.size(), from.session + 1));
            links[from.session] = &directions.back().link;
        }
    }
    /* The session of a node that has the next number. */
    static End next_session(Node &node) { return {&node, node.links.size()}; }

    void join_control_nodes(const Document &document) {
        for (ControlNode &control_node : control_nodes)
            join(next_session(configuration), next_session(control_node), Framing::record);
        for (size_t one = 0; one < control_nodes.size(); ++one)
            for (size_t other = one + 1; other < control_nodes.size(); ++other) {
                control_nodes[one].add_peer(document.controllers[other].address);
                control_nodes[other].add_peer(document.controllers[one].address);
                join(next_session(control_nodes[one]), next_session(control_nodes[other]), Framing::bgp);
            }
    }
    void join_agents(const Document &document) {
        for (size_t agent = 0; agent < agents.size(); ++agent) {
            const std::vector<std::string_view> &listed = document.nodes[agent].controllers;
            for (size_t place = 0; place < control_nodes.size(); ++place) {
                const auto found = std::find(listed.begin(), listed.end(), document.controllers[place].name);
                if (found == listed.end()) continue;
                control_nodes[place].add_agent(document.nodes[agent].address);
                const auto session = static_cast<size_t>(found - listed.begin());
                join(next_session(control_nodes[place]), {&agents[agent], session}, Framing::record);
            }
        }
    }
    /* Takes, of each direction in turn, what was in flight there when the round began. */
    void round() {
        ++rounds;
        std::vector<uint64_t> counts;
        for (const Direction &direction : directions) {
            counts.push_back(direction.link.messages_in_flight());
            if (told && is_busy(direction)) print_in_flight(direction);
        }
        for (size_t place = 0; place < directions.size(); ++place) {
            Direction &direction = directions[place];
            for (uint64_t taken = 0; taken < counts[place]; ++taken)
                direction.taker.node->take(direction.taker.session, direction.link.take());
            direction.link.drop_taken();
        }
    }
    void print_in_flight(const Direction &direction) {
        *told << rounds << " " << direction.sender.node->name << " " << direction.taker.node->name << " "
              << static_cast<uint32_t>(direction.link.messages_in_flight()) << " "
              << static_cast<uint32_t>(direction.link.octets_in_flight()) << "\n";
    }
    unsigned long long sum(uint64_t (Link::*count)() const) const {
        unsigned long long sum = 0;
        for (const Direction &direction : directions) sum += (direction.link.*count)();
        return sum;
    }
};

std::string standard_input() {
    std::string text;
    char piece[1 << 16];
    while (const size_t count = std::fread(piece, 1, sizeof piece, stdin)) text.append(piece, count);
    return text;
}

}  // namespace

int main(int count, char **words) {
    bool rounds = false, tables = false, figures = false;
    for (int place = 1; place < count; ++place) {
        const std::string_view word = words[place];
        if (word == "rounds") rounds = true;
        else if (word == "tables") tables = true;
        else if (word == "figures") figures = true;
        else stop("usage: settle_floor [rounds] [tables] [figures] < DOCUMENT");
    }
    const std::string input = standard_input();
    const Document document = read_document(input);
    Network network(document);
    Text in_flight, text;
    if (rounds) network.tell_rounds(in_flight);
    const std::clock_t began = std::clock();
    if (document.settles) network.settle();
    const double seconds = static_cast<double>(std::clock() - began) / CLOCKS_PER_SEC;

    if (document.settles) text << "1 settled rounds " << network.rounds_taken() << "\n" << in_flight.octets;
    if (document.settles && tables) network.print(text);
    std::fwrite(text.octets.data(), 1, text.octets.size(), stdout);
    if (figures)
        std::printf("messages %llu octets %llu rounds %u seconds %.6f\n", network.messages(), network.octets(),
                    network.rounds_taken(), seconds);
    return 0;
}
