// QuickFIX as the other side of a line. tests/test_peer.py gives the orders and compares.
//
//     peer make       orders on standard input, a message that QuickFIX makes of each, in hex digits
//     peer parse      messages in hex digits, what QuickFIX reads of each, its checks of length and checksum on
//     peer session    orders, sent by its initiator to its acceptor over 127.0.0.1; all that came, in hex digits
//     peer exchange   the same, and the acceptor answers as an exchange does: lines `wire HEX` of both directions as its log has them,
//                     and lines `truth SYMBOL ACCOUNT EVENT TIME ..` of what it did to its orders
//
// An order is a line `KIND HEADER ID ORIG SIDE VOLUME PRICE TIME`, numbers that its kind does not take 0, and at most ` SYMBOL ACCOUNT`
// after it. A line of kind X ends the session at its time; the maker then logs on again for the lines that follow.

#include <quickfix/Message.h>
#include <quickfix/Session.h>
#include <quickfix/SocketAcceptor.h>
#include <quickfix/SocketInitiator.h>
#include <quickfix/fix44/NewOrderSingle.h>
#include <quickfix/fix44/OrderCancelReplaceRequest.h>
#include <quickfix/fix44/OrderCancelRequest.h>

#include <arpa/inet.h>
#include <atomic>
#include <cstdint>
#include <cstdio>
#include <iostream>
#include <map>
#include <mutex>
#include <sstream>
#include <string>
#include <sys/socket.h>
#include <sys/syscall.h>
#include <unistd.h>
#include <vector>

static const int LONGEST = 60;        // seconds, after which the process ends itself
static const int PATIENCE = 20 * 100; // hundredths of a second, for what is awaited

struct Order
{
  char kind;
  int header;
  std::string id, orig;
  char side;
  std::uint32_t volume;
  std::int32_t price;
  std::string time, symbol, account;
};

static bool readOrder(std::istream& in, Order& order)
{
  std::string line;
  if (!std::getline(in, line))
    return false;
  std::istringstream words(line);
  const bool isRead = static_cast<bool>(words >> order.kind >> order.header >> order.id >> order.orig >> order.side
                                              >> order.volume >> order.price >> order.time);
  if (!(words >> order.symbol >> order.account))
  {
    order.symbol = "BR-12.26";
    order.account = "A-1001";
  }
  return isRead;
}

// ---------------------------------------------------------------- making

static FIX::TransactTime timeOf(const Order& order)
{
  return FIX::TransactTime(FIX::UtcTimeStampConvertor::convert(order.time), 3);
}

// What an order that quotes has beside its id, side and time.
template <typename Message> static void quote(Message& message, const Order& order)
{
  message.set(FIX::OrderQty(order.volume));
  message.set(FIX::Price(order.price));
  if (!order.header)
    return;
  message.set(FIX::HandlInst('1'));
  message.set(FIX::Symbol(order.symbol));
  message.set(FIX::TimeInForce('0'));
  message.set(FIX::Account(order.account));
}

static FIX::Message newOrder(const Order& order)
{
  FIX44::NewOrderSingle message(FIX::ClOrdID(order.id), FIX::Side(order.side), timeOf(order), FIX::OrdType('2'));
  quote(message, order);
  return message;
}

static FIX::Message cancelOrder(const Order& order)
{
  FIX44::OrderCancelRequest message(FIX::OrigClOrdID(order.orig), FIX::ClOrdID(order.id), FIX::Side('1'), timeOf(order));
  if (order.header)
  {
    message.set(FIX::Symbol(order.symbol));
    message.set(FIX::Account(order.account));
  }
  else
    message.removeField(54); // nothing but what is used
  return message;
}

static FIX::Message replaceOrder(const Order& order)
{
  FIX44::OrderCancelReplaceRequest message(FIX::OrigClOrdID(order.orig), FIX::ClOrdID(order.id), FIX::Side(order.side),
                                           timeOf(order), FIX::OrdType('2'));
  quote(message, order);
  return message;
}

static FIX::Message messageOf(const Order& order)
{
  FIX::Message message = order.kind == 'D'   ? newOrder(order)
                         : order.kind == 'F' ? cancelOrder(order)
                                             : replaceOrder(order);
  if (!order.header)
    message.removeField(40);
  return message;
}

static void addHeader(FIX::Message& message, int number)
{
  message.getHeader().setField(FIX::SenderCompID("MAKER01"));
  message.getHeader().setField(FIX::TargetCompID("EXCHANGE"));
  message.getHeader().setField(FIX::MsgSeqNum(number));
  message.getHeader().setField(FIX::SendingTime(FIX::UtcTimeStamp(), 3));
}

static void printHex(const std::string& data)
{
  for (unsigned char byte : data)
    std::printf("%02x", byte);
  std::printf("\n");
}

static int make()
{
  Order order;
  for (int number = 1; readOrder(std::cin, order); number++)
  {
    FIX::Message message = messageOf(order);
    if (order.header)
      addHeader(message, number);
    printHex(message.toString());
  }
  return 0;
}

// ---------------------------------------------------------------- parsing

static std::string fromHex(const std::string& line)
{
  std::string data;
  for (std::size_t at = 0; at + 1 < line.size(); at += 2)
    data.push_back(static_cast<char>(std::stoi(line.substr(at, 2), nullptr, 16)));
  return data;
}

template <typename Field> static Field get(const FIX::Message& message)
{
  Field field;
  message.getField(field);
  return field;
}

// The fields, each by QuickFIX's own type of it, in the order of `probe`.
static std::string shown(const FIX::Message& message)
{
  FIX::MsgType type;
  message.getHeader().getField(type);
  const std::string kind = type.getValue();
  std::ostringstream out;
  out << "message " << kind << " 11 " << get<FIX::ClOrdID>(message).getValue();
  if (kind != "D")
    out << " 41 " << get<FIX::OrigClOrdID>(message).getValue();
  if (kind != "F")
    out << " 54 " << get<FIX::Side>(message).getValue()
        << " 38 " << static_cast<std::int64_t>(get<FIX::OrderQty>(message).getValue())
        << " 44 " << static_cast<std::int64_t>(get<FIX::Price>(message).getValue());
  const FIX::UtcTimeStamp time = get<FIX::TransactTime>(message).getValue();
  out << " 60 " << FIX::UtcTimeStampConvertor::convert(time, 3);
  return out.str();
}

static int parse()
{
  std::string line;
  while (std::getline(std::cin, line))
  {
    try
    {
      FIX::Message message;
      message.setString(fromHex(line), true);
      std::cout << shown(message) << "\n";
    }
    catch (const FIX::Exception& error)
    {
      std::cout << "rejected " << error.what() << "\n";
    }
  }
  return 0;
}

// ---------------------------------------------------------------- a session

static std::atomic<int> listening{0}; // the acceptor's port

// QuickFIX listens on every address of the machine. This takes the place of the system's call: its listener gets
// 127.0.0.1 and a port that is free.
extern "C" int bind(int fd, const sockaddr*, socklen_t) noexcept
{
  sockaddr_in local = {};
  local.sin_family = AF_INET;
  local.sin_addr.s_addr = htonl(INADDR_LOOPBACK);
  const long answer = syscall(SYS_bind, fd, &local, sizeof local);
  socklen_t size = sizeof local;
  if (answer == 0 && getsockname(fd, reinterpret_cast<sockaddr*>(&local), &size) == 0)
    listening = ntohs(local.sin_port);
  return static_cast<int>(answer);
}

struct Party : FIX::Application
{
  std::atomic<bool> isOn{false};
  std::atomic<std::size_t> taken{0}; // application messages

  virtual void disconnect(const std::string&) {}
  void onCreate(const FIX::SessionID&) override {}
  void onLogon(const FIX::SessionID&) override { isOn = true; }
  void onLogout(const FIX::SessionID&) override { isOn = false; }
  void toAdmin(FIX::Message&, const FIX::SessionID&) override {}
  void toApp(FIX::Message&, const FIX::SessionID&) throw(FIX::DoNotSend) override {}
  void fromAdmin(const FIX::Message&, const FIX::SessionID&)
    throw(FIX::FieldNotFound, FIX::IncorrectDataFormat, FIX::IncorrectTagValue, FIX::RejectLogon) override {}
  void fromApp(const FIX::Message&, const FIX::SessionID&)
    throw(FIX::FieldNotFound, FIX::IncorrectDataFormat, FIX::IncorrectTagValue, FIX::UnsupportedMessageType) override
  {
    taken++;
  }
};

// Keeps what comes, and what goes where it is asked to, byte for byte.
struct Wire : FIX::Log, FIX::LogFactory
{
  std::mutex mutex;
  std::vector<std::string> came;
  bool keepsBoth = false;

  FIX::Log* create() override { return this; }
  FIX::Log* create(const FIX::SessionID&) override { return this; }
  void destroy(FIX::Log*) override {}
  void clear() override {}
  void backup() override {}
  void onOutgoing(const std::string& data) override
  {
    if (keepsBoth)
      onIncoming(data);
  }
  void onEvent(const std::string&) override {}
  void onIncoming(const std::string& data) override
  {
    std::lock_guard<std::mutex> lock(mutex);
    came.push_back(data);
  }
};

static FIX::SessionSettings settings(const std::string& type, const std::string& own, const std::string& other,
                                     const std::string& more)
{
  std::istringstream text("[DEFAULT]\nConnectionType=" + type +
                          "\nStartTime=00:00:00\nEndTime=00:00:00\nUseDataDictionary=N\nHeartBtInt=30\nReconnectInterval=1\n"
                          "[SESSION]\nBeginString=FIX.4.4\nSenderCompID=" + own + "\nTargetCompID=" + other + "\n" + more);
  return FIX::SessionSettings(text);
}

template <typename Test> static bool await(Test test)
{
  for (int turn = 0; turn < PATIENCE && !test(); turn++)
    usleep(10 * 1000);
  return test();
}

// The session ends, the exchange acts while nobody listens, and the maker logs on again. It is then sent what it missed.
static bool breakOff(const FIX::SessionID& session, const std::string& time, const Party& maker, Party& exchange)
{
  FIX::Session* const line = FIX::Session::lookupSession(session);
  line->logout();
  if (!await([&] { return !maker.isOn && !exchange.isOn; }))
    return false;
  exchange.disconnect(time);
  line->logon();
  return await([&] { return maker.isOn.load(); });
}

static bool sendAll(const std::vector<Order>& orders, const Party& maker, Party& exchange)
{
  const FIX::SessionID session("FIX.4.4", "MAKER01", "EXCHANGE");
  bool isFine = await([&] { return maker.isOn.load(); });
  std::size_t sent = 0;
  for (const Order& order : orders)
  {
    const bool isEnd = order.kind == 'X';
    if (isEnd)
      isFine = isFine && await([&] { return exchange.taken == sent; }) && breakOff(session, order.time, maker, exchange);
    if (!isFine)
      return false;
    if (isEnd)
      continue;
    FIX::Message message = messageOf(order);
    FIX::Session::sendToTarget(message, session);
    sent++;
  }
  return await([&] { return exchange.taken == sent; });
}

// ---------------------------------------------------------------- an exchange

struct Live
{
  std::string cl, oid, side;
  long price, volume;
  std::string symbol, account;
};

// Acknowledges, rejects, fills in part and in full, replaces, refuses replaces, sends reports twice, and cancels when the maker goes.
struct Exchange : Party
{
  std::map<std::string, Live> live; // by symbol, account and ClOrdID
  std::vector<std::string> truth;
  std::string symbol, account, time;
  FIX::SessionID line;
  int asked = 0, orders = 0, executions = 0, replaces = 0;

  void fromApp(const FIX::Message& message, const FIX::SessionID& session)
    throw(FIX::FieldNotFound, FIX::IncorrectDataFormat, FIX::IncorrectTagValue, FIX::UnsupportedMessageType) override
  {
    line = session;
    symbol = message.getField(55);
    account = message.getField(1);
    time = message.getField(60);
    const std::string kind = message.getHeader().getField(35);
    asked++;
    if (kind == "D")
      enter(message);
    else if (kind == "G")
      replace(message);
    else
      cancel(message);
    taken++;
  }

  std::string key(const std::string& cl) const { return symbol + " " + account + " " + cl; }

  void happened(const std::string& event, const std::string& rest)
  {
    truth.push_back(symbol + " " + account + " " + event + " " + time + " " + rest);
  }

  void report(const std::string& kind, const std::string& oid, const std::string& cl, const std::string& orig, const Live& order, long dealt)
  {
    FIX::Message message;
    message.getHeader().setField(35, "8");
    message.setField(37, oid);
    message.setField(1, order.account);
    message.setField(11, cl);
    if (!orig.empty())
      message.setField(41, orig);
    message.setField(17, "E" + std::to_string(++executions));
    message.setField(150, kind);
    message.setField(39, kind == "F" ? (order.volume ? "1" : "2") : kind);
    message.setField(55, order.symbol);
    message.setField(54, order.side);
    message.setField(44, std::to_string(order.price));
    message.setField(151, std::to_string(kind == "4" || kind == "8" ? 0 : order.volume));
    if (dealt)
      message.setField(32, std::to_string(dealt));
    message.setField(60, time);
    FIX::Message again = message;
    FIX::Session::sendToTarget(message, line);
    if (executions % 6 == 0)
      FIX::Session::sendToTarget(again, line);
  }

  void reject(const FIX::Message& request)
  {
    FIX::Message message;
    message.getHeader().setField(35, "9");
    message.setField(37, "NONE");
    message.setField(11, request.getField(11));
    message.setField(41, request.getField(41));
    message.setField(39, "8");
    message.setField(434, "2");
    FIX::Session::sendToTarget(message, line);
  }

  static std::string terms(const Live& order) { return std::to_string(order.price) + " " + std::to_string(order.volume); }

  void enter(const FIX::Message& message)
  {
    const std::string cl = message.getField(11);
    Live order = {cl, std::to_string(900000 + ++orders), message.getField(54), std::stol(message.getField(44)),
                  std::stol(message.getField(38)), symbol, account};
    if (asked % 7 == 0)
    {
      report("8", "NONE", cl, "", order, 0);
      return;
    }
    report("0", order.oid, cl, "", order, 0);
    happened("add", order.oid + " " + (order.side == "1" ? "buy" : "sell") + " " + terms(order));
    live[key(cl)] = order;
    if (asked % 4 == 0)
      fill(cl, asked % 8 == 0 ? order.volume : (order.volume + 1) / 2);
  }

  void fill(const std::string& cl, long dealt)
  {
    Live& order = live[key(cl)];
    order.volume -= dealt;
    report("F", order.oid, cl, "", order, dealt);
    happened("deal", order.oid + " " + std::to_string(dealt));
    if (!order.volume)
      live.erase(key(cl));
  }

  void replace(const FIX::Message& message)
  {
    const std::string cl = message.getField(11), orig = message.getField(41);
    if (!live.count(key(orig)) || ++replaces % 5 == 0)
    {
      reject(message);
      return;
    }
    Live order = live[key(orig)];
    live.erase(key(orig));
    order.cl = cl;
    order.price = std::stol(message.getField(44));
    order.volume = std::stol(message.getField(38));
    live[key(cl)] = order;
    report("5", order.oid, cl, orig, order, 0);
    happened("amend", order.oid + " " + terms(order));
  }

  void cancel(const FIX::Message& message)
  {
    const std::string orig = message.getField(41);
    if (!live.count(key(orig)))
    {
      reject(message);
      return;
    }
    const Live order = live[key(orig)];
    live.erase(key(orig));
    report("4", order.oid, message.getField(11), orig, order, 0);
    happened("cancel", order.oid);
  }

  // The maker is gone: half of the orders are cancelled, and nobody asked for it.
  void disconnect(const std::string& when) override
  {
    const std::map<std::string, Live> before = live;
    bool turn = false;
    time = when;
    for (const auto& pair : before)
      if ((turn = !turn))
      {
        symbol = pair.second.symbol;
        account = pair.second.account;
        live.erase(pair.first);
        report("4", pair.second.oid, pair.second.cl, "", pair.second, 0);
        happened("cancel", pair.second.oid);
      }
  }
};

static int session(Party& exchange, bool isExchange)
{
  alarm(LONGEST);
  std::vector<Order> orders;
  for (Order order; readOrder(std::cin, order);)
    orders.push_back(order);
  Party maker;
  Wire makersWire, exchangesWire;
  exchangesWire.keepsBoth = isExchange;
  FIX::MemoryStoreFactory makersStore, exchangesStore;
  FIX::SocketAcceptor acceptor(exchange, exchangesStore,
                               settings("acceptor", "EXCHANGE", "MAKER01", "SocketAcceptPort=1\n"), exchangesWire);
  acceptor.start();
  if (listening == 0)
  {
    std::cerr << "the acceptor does not listen on 127.0.0.1 alone\n";
    return 1;
  }
  const std::string port = std::to_string(listening);
  FIX::SocketInitiator initiator(maker, makersStore,
                                 settings("initiator", "MAKER01", "EXCHANGE",
                                          "SocketConnectHost=127.0.0.1\nSocketConnectPort=" + port + "\n"), makersWire);
  initiator.start();
  const bool came = sendAll(orders, maker, exchange);
  exchange.disconnect(orders.empty() ? "" : orders.back().time);
  initiator.stop();
  acceptor.stop();
  for (const std::string& data : exchangesWire.came)
  {
    std::cout << (isExchange ? "wire " : "");
    printHex(data);
  }
  return came ? 0 : 1;
}

static int exchange()
{
  Exchange party;
  const int status = session(party, true);
  for (const std::string& line : party.truth)
    std::cout << "truth " << line << "\n";
  return status;
}

int main(int count, char** words)
{
  const std::string command = count == 2 ? words[1] : "";
  try
  {
    if (command == "make")
      return make();
    if (command == "parse")
      return parse();
    if (command == "session")
    {
      Party party;
      return session(party, false);
    }
    if (command == "exchange")
      return exchange();
  }
  catch (const std::exception& error)
  {
    std::cerr << error.what() << "\n";
    return 1;
  }
  std::cerr << "peer make|parse|session|exchange\n";
  return 2;
}
