// Written by scripts/write_client.py from the OpenAPI description of `shop serve`. It needs nothing but `fetch`.

/** What isn't well, as the server tells it (RFC 9457). */
export class ProblemError extends Error {
  constructor(readonly problem: Problem) {
    super(problem.detail);
    this.name = problem.name;
  }
}

export interface ServerEvent {
  event: string;
  id?: string;
  data: unknown;
}

export interface User {
  kind: "user";
  id: string;
  nickname: string;
  items: number;
  bought: number;
  rating: number;
  comments: number;
}

export interface Item {
  kind: "item";
  id: string;
  seller: string;
  name: string;
  category: number;
  stock: number;
  sold: number;
  start: number;
  price: number;
  bids: number;
  best: string | null;
  amount: number;
  state: "open" | "closed";
  winner: string | null;
}

export interface Bid {
  kind: "bid";
  id: string;
  item: string;
  bidder: string;
  amount: number;
  red: number;
}

export interface Purchase {
  kind: "purchase";
  id: string;
  item: string;
  buyer: string;
  quantity: number;
}

export interface Comment {
  kind: "comment";
  id: string;
  item: string;
  from: string;
  to: string;
  rating: number;
  text: string;
}

export interface Category {
  kind: "category";
  category: number;
  items: number;
  live: number;
}

export interface Misfit {
  kind: "NoRow" | "RowThere" | "ClosedItem" | "StockShort" | "OtherUser";
  entry: number;
  part: number;
  id: string;
}

export interface Log {
  kind: "log";
  entry: number;
  id: string;
  red: number;
  deps: string;
  shadow: string;
  message: string;
}

export interface Stand {
  messages: number;
  behind: number;
}

export interface UserPage {
  rows: Array<User>;
  next: string | null;
}

export interface ItemPage {
  rows: Array<Item>;
  next: string | null;
  view?: Stand;
}

export interface BidPage {
  rows: Array<Bid>;
  next: string | null;
}

export interface PurchasePage {
  rows: Array<Purchase>;
  next: string | null;
}

export interface CommentPage {
  rows: Array<Comment>;
  next: string | null;
}

export interface CategoryPage {
  rows: Array<Category>;
  next: string | null;
}

export interface MisfitPage {
  rows: Array<Misfit>;
  next: string | null;
}

export interface LogPage {
  rows: Array<Log>;
  next: string | null;
}

export interface ItemSeen {
  kind: "item";
  id: string;
  seller: string;
  name: string;
  category: number;
  stock: number;
  sold: number;
  start: number;
  price: number;
  bids: number;
  best: string | null;
  amount: number;
  state: "open" | "closed";
  winner: string | null;
  seen: string | null;
  entry: number;
}

export interface UserItems {
  rows: Array<{ kind: "item"; id: string; seller: string; name: string; category: number; stock: number; sold: number; start: number; price: number; bids: number; best: string | null; amount: number; state: "open" | "closed"; winner: string | null; seen: string | null; entry: number }>;
  next: string | null;
  view: Stand;
}

export interface UserBids {
  rows: Array<{ kind: "bid"; id: string; item: string; bidder: string; amount: number; red: number; seen: string | null; entry: number; item_row: ItemSeen | null }>;
  next: string | null;
  view: Stand;
}

export interface UserPurchases {
  rows: Array<{ kind: "purchase"; id: string; item: string; buyer: string; quantity: number; seen: string | null; entry: number; item_row: ItemSeen | null }>;
  next: string | null;
  view: Stand;
}

export interface UserComments {
  rows: Array<{ kind: "comment"; id: string; item: string; from: string; to: string; rating: number; text: string; seen: string | null; entry: number; item_row: ItemSeen | null }>;
  next: string | null;
  view: Stand;
}

export interface Health {
  ok: boolean;
  sites?: Record<string, unknown>;
}

export interface View {
  site: number;
  messages: number;
  counts: Array<number>;
  behind: number;
}

export type Ask =
  | { ask: "user"; nickname: string; key?: string }
  | { ask: "item"; seller: string; name: string; category: string | number; stock: string | number; start: string | number; price: string | number; key?: string }
  | { ask: "bid"; item: string; bidder: string; amount: string | number; key?: string }
  | { ask: "buy"; item: string; buyer: string; quantity: string | number; key?: string }
  | { ask: "close"; item: string; seller: string; key?: string }
  | { ask: "comment"; item: string; from: string; to: string; rating: string | number; text: string; key?: string }
  | { ask: "restock"; item: string; seller: string; quantity: string | number; key?: string }
  | { ask: "rename"; user: string; nickname: string; key?: string }
  | { record: string; key?: string };

export interface Told {
  record: string;
  answer: "ok" | "passed" | "refused";
  id?: string;
  again?: true;
  problem?: Problem;
}

export type ToldOrEnd =
  | Told
  | { problem: Problem };

export interface Problem {
  type: string;
  title: string;
  status: number;
  detail: string;
  name: string;
  number?: number;
}

export interface Kind {
  type: string;
  title: string;
  status: number;
}

export interface Verdict {
  verdict: string;
  agrees: boolean;
  log?: number;
  entry?: number;
  record?: number;
}

export interface Site {
  site: number;
  state: string;
  since?: string;
  own?: number;
  messages?: number;
  sent?: number;
  published?: number;
  held?: number;
  records?: number;
  records_left?: number;
  turn?: number;
  waiting?: number;
  starts?: number;
  faults?: number;
  holds_token?: boolean;
  full?: boolean;
  silent?: number | null;
  fault?: string | null;
}

export interface Shop {
  well: boolean;
  token?: number | null;
  view?: number | null;
  sites: Array<Site>;
}

type Query = Record<string, string | number | boolean | undefined>;

/** A shop that `shop serve` serves at this URL; `key` is a bearer key, where it wants one. */
export class ShopClient {
  constructor(readonly url: string, readonly key?: string) {}

  private async send(method: string, path: string, accept: string, query: Query, headers: Query, body?: unknown): Promise<Response> {
    const said = Object.entries(query).filter(([, value]) => value !== undefined).map(([name, value]) => [name, String(value)]);
    const all: Record<string, string> = { Accept: accept };
    if (this.key !== undefined) all.Authorization = `Bearer ${this.key}`;
    for (const [name, value] of Object.entries(headers)) if (value !== undefined) all[name] = String(value);
    const init: RequestInit = { method, headers: all };
    if (body !== undefined) {
      all["Content-Type"] = "application/json";
      init.body = JSON.stringify(body);
    }
    const search = said.length ? `?${new URLSearchParams(said)}` : "";
    const response = await fetch(this.url.replace(/\/$/, "") + path + search, init);
    if (response.ok) return response;
    if (response.headers.get("Content-Type")?.startsWith("application/problem+json")) throw new ProblemError((await response.json()) as Problem);
    const { status, statusText: title } = response; // of a server in between
    throw new ProblemError({ type: "about:blank", title, status, detail: `${method} ${path}: ${status} ${title}`, name: "Unknown" });
  }

  private async *lines(response: Response): AsyncGenerator<string, void, undefined> {
    const reader = response.body!.pipeThrough(new TextDecoderStream()).getReader();
    let rest = "";
    try {
      for (let piece = await reader.read(); !piece.done; piece = await reader.read()) {
        const lines = (rest + piece.value).split("\n");
        rest = lines.pop()!;
        yield* lines;
      }
    } finally {
      await reader.cancel();
    }
  }

  /** A page of the running shop. */
  async getPage(): Promise<string> {
    return (await (await this.send("GET", `/`, "text/html", {}, {})).text()) as string;
  }

  /** This description. */
  async getDescription(): Promise<Record<string, unknown>> {
    return (await (await this.send("GET", `/openapi.json`, "application/json", {}, {})).json()) as Record<string, unknown>;
  }

  /** What a type of problem is. */
  async getProblem(name: string): Promise<Kind> {
    return (await (await this.send("GET", `/problems/${encodeURIComponent(name)}`, "application/json", {}, {})).json()) as Kind;
  }

  /** That this server runs. */
  async getHealth(): Promise<Health> {
    return (await (await this.send("GET", `/healthz`, "application/json", {}, {})).json()) as Health;
  }

  /** Whether a site here takes asks; 503 if none does, or not the one that is named. */
  async getReadiness(options: { site?: number } = {}): Promise<Health> {
    return (await (await this.send("GET", `/readyz`, "application/json", { "site": options.site }, {})).json()) as Health;
  }

  /** How the shop and each of its sites is. */
  async getSites(): Promise<Shop> {
    return (await (await this.send("GET", `/sites`, "application/json", {}, {})).json()) as Shop;
  }

  /** How a site is. */
  async getSite(site: number): Promise<Site> {
    return (await (await this.send("GET", `/sites/${encodeURIComponent(site)}`, "application/json", {}, {})).json()) as Site;
  }

  /** Asks a site: one ask, or several, one behind the other. */
  async postAsks(site: number, body: Ask, options: { timeout?: number; fetch?: boolean; published?: boolean; idempotencyKey?: string } = {}): Promise<Told> {
    return (await (await this.send("POST", `/sites/${encodeURIComponent(site)}/asks`, "application/json", { "timeout": options.timeout, "fetch": options.fetch, "published": options.published }, { "Idempotency-Key": options.idempotencyKey }, body)).json()) as Told;
  }

  /** Asks a site: one ask, or several, one behind the other. */
  async *postAsksInLines(site: number, body: Array<Ask>, options: { timeout?: number; fetch?: boolean; published?: boolean; idempotencyKey?: string } = {}): AsyncGenerator<ToldOrEnd> {
    const response = await this.send("POST", `/sites/${encodeURIComponent(site)}/asks`, "application/x-ndjson", { "timeout": options.timeout, "fetch": options.fetch, "published": options.published }, { "Idempotency-Key": options.idempotencyKey }, body);
    for await (const line of this.lines(response)) yield JSON.parse(line) as ToldOrEnd;
  }

  /** Hands the token on from the site that holds it. */
  async postPass(site: number, body: { to: number }, options: { timeout?: number } = {}): Promise<Told> {
    return (await (await this.send("POST", `/sites/${encodeURIComponent(site)}/pass`, "application/json", { "timeout": options.timeout }, {}, body)).json()) as Told;
  }

  /** The users as a site has them, a page at a time. */
  async listUsers(site: number, options: { nickname?: string; after?: string; limit?: number; behind?: string; timeout?: number } = {}): Promise<UserPage> {
    return (await (await this.send("GET", `/sites/${encodeURIComponent(site)}/users`, "application/json", { "nickname": options.nickname, "after": options.after, "limit": options.limit, "behind": options.behind, "timeout": options.timeout }, {})).json()) as UserPage;
  }

  /** One of the users. */
  async getUser(site: number, key: string, options: { behind?: string; timeout?: number } = {}): Promise<User> {
    return (await (await this.send("GET", `/sites/${encodeURIComponent(site)}/users/${encodeURIComponent(key)}`, "application/json", { "behind": options.behind, "timeout": options.timeout }, {})).json()) as User;
  }

  /** The items as a site has them, a page at a time. */
  async listItems(site: number, options: { category?: number; seller?: string; open?: boolean; q?: string; sort?: "-entry" | "entry" | "-amount" | "amount" | "-price" | "price"; after?: string; limit?: number; behind?: string; timeout?: number } = {}): Promise<ItemPage> {
    return (await (await this.send("GET", `/sites/${encodeURIComponent(site)}/items`, "application/json", { "category": options.category, "seller": options.seller, "open": options.open, "q": options.q, "sort": options.sort, "after": options.after, "limit": options.limit, "behind": options.behind, "timeout": options.timeout }, {})).json()) as ItemPage;
  }

  /** One of the items. */
  async getItem(site: number, key: string, options: { behind?: string; timeout?: number } = {}): Promise<Item> {
    return (await (await this.send("GET", `/sites/${encodeURIComponent(site)}/items/${encodeURIComponent(key)}`, "application/json", { "behind": options.behind, "timeout": options.timeout }, {})).json()) as Item;
  }

  /** The bids as a site has them, a page at a time. */
  async listBids(site: number, options: { item: string; after?: string; limit?: number; behind?: string; timeout?: number }): Promise<BidPage> {
    return (await (await this.send("GET", `/sites/${encodeURIComponent(site)}/bids`, "application/json", { "item": options.item, "after": options.after, "limit": options.limit, "behind": options.behind, "timeout": options.timeout }, {})).json()) as BidPage;
  }

  /** One of the bids. */
  async getBid(site: number, key: string, options: { behind?: string; timeout?: number } = {}): Promise<Bid> {
    return (await (await this.send("GET", `/sites/${encodeURIComponent(site)}/bids/${encodeURIComponent(key)}`, "application/json", { "behind": options.behind, "timeout": options.timeout }, {})).json()) as Bid;
  }

  /** The purchases as a site has them, a page at a time. */
  async listPurchases(site: number, options: { item: string; after?: string; limit?: number; behind?: string; timeout?: number }): Promise<PurchasePage> {
    return (await (await this.send("GET", `/sites/${encodeURIComponent(site)}/purchases`, "application/json", { "item": options.item, "after": options.after, "limit": options.limit, "behind": options.behind, "timeout": options.timeout }, {})).json()) as PurchasePage;
  }

  /** One of the purchases. */
  async getPurchase(site: number, key: string, options: { behind?: string; timeout?: number } = {}): Promise<Purchase> {
    return (await (await this.send("GET", `/sites/${encodeURIComponent(site)}/purchases/${encodeURIComponent(key)}`, "application/json", { "behind": options.behind, "timeout": options.timeout }, {})).json()) as Purchase;
  }

  /** The comments as a site has them, a page at a time. */
  async listComments(site: number, options: { to: string; after?: string; limit?: number; behind?: string; timeout?: number }): Promise<CommentPage> {
    return (await (await this.send("GET", `/sites/${encodeURIComponent(site)}/comments`, "application/json", { "to": options.to, "after": options.after, "limit": options.limit, "behind": options.behind, "timeout": options.timeout }, {})).json()) as CommentPage;
  }

  /** One of the comments. */
  async getComment(site: number, key: string, options: { behind?: string; timeout?: number } = {}): Promise<Comment> {
    return (await (await this.send("GET", `/sites/${encodeURIComponent(site)}/comments/${encodeURIComponent(key)}`, "application/json", { "behind": options.behind, "timeout": options.timeout }, {})).json()) as Comment;
  }

  /** The categories as a site has them, a page at a time. */
  async listCategories(site: number, options: { after?: string; limit?: number; behind?: string; timeout?: number } = {}): Promise<CategoryPage> {
    return (await (await this.send("GET", `/sites/${encodeURIComponent(site)}/categories`, "application/json", { "after": options.after, "limit": options.limit, "behind": options.behind, "timeout": options.timeout }, {})).json()) as CategoryPage;
  }

  /** One of the categories. */
  async getCategory(site: number, key: number, options: { behind?: string; timeout?: number } = {}): Promise<Category> {
    return (await (await this.send("GET", `/sites/${encodeURIComponent(site)}/categories/${encodeURIComponent(key)}`, "application/json", { "behind": options.behind, "timeout": options.timeout }, {})).json()) as Category;
  }

  /** The misfits as a site has them, a page at a time. */
  async listMisfits(site: number, options: { after?: string; limit?: number; behind?: string; timeout?: number } = {}): Promise<MisfitPage> {
    return (await (await this.send("GET", `/sites/${encodeURIComponent(site)}/misfits`, "application/json", { "after": options.after, "limit": options.limit, "behind": options.behind, "timeout": options.timeout }, {})).json()) as MisfitPage;
  }

  /** The items of a user, by `seller`, from a view, the newest first. */
  async listUserItems(site: number, key: string, options: { after?: string; limit?: number; behind?: string; timeout?: number } = {}): Promise<UserItems> {
    return (await (await this.send("GET", `/sites/${encodeURIComponent(site)}/users/${encodeURIComponent(key)}/items`, "application/json", { "after": options.after, "limit": options.limit, "behind": options.behind, "timeout": options.timeout }, {})).json()) as UserItems;
  }

  /** The bids of a user, by `bidder`, from a view, the newest first. */
  async listUserBids(site: number, key: string, options: { after?: string; limit?: number; behind?: string; timeout?: number } = {}): Promise<UserBids> {
    return (await (await this.send("GET", `/sites/${encodeURIComponent(site)}/users/${encodeURIComponent(key)}/bids`, "application/json", { "after": options.after, "limit": options.limit, "behind": options.behind, "timeout": options.timeout }, {})).json()) as UserBids;
  }

  /** The purchases of a user, by `buyer`, from a view, the newest first. */
  async listUserPurchases(site: number, key: string, options: { after?: string; limit?: number; behind?: string; timeout?: number } = {}): Promise<UserPurchases> {
    return (await (await this.send("GET", `/sites/${encodeURIComponent(site)}/users/${encodeURIComponent(key)}/purchases`, "application/json", { "after": options.after, "limit": options.limit, "behind": options.behind, "timeout": options.timeout }, {})).json()) as UserPurchases;
  }

  /** The comments of a user, by `from`, from a view, the newest first. */
  async listUserComments(site: number, key: string, options: { after?: string; limit?: number; behind?: string; timeout?: number } = {}): Promise<UserComments> {
    return (await (await this.send("GET", `/sites/${encodeURIComponent(site)}/users/${encodeURIComponent(key)}/comments`, "application/json", { "after": options.after, "limit": options.limit, "behind": options.behind, "timeout": options.timeout }, {})).json()) as UserComments;
  }

  /** The messages that a site has released, in their order, a page at a time. */
  async getLog(site: number, options: { after?: string; limit?: number; timeout?: number } = {}): Promise<LogPage> {
    return (await (await this.send("GET", `/sites/${encodeURIComponent(site)}/log`, "application/json", { "after": options.after, "limit": options.limit, "timeout": options.timeout }, {})).json()) as LogPage;
  }

  /** How far the view of a site is. */
  async getView(site: number, options: { timeout?: number } = {}): Promise<View> {
    return (await (await this.send("GET", `/sites/${encodeURIComponent(site)}/view`, "application/json", { "timeout": options.timeout }, {})).json()) as View;
  }

  /** What a site is asked (<) and answers (>), as it comes. */
  async *getFollow(site: number): AsyncGenerator<ServerEvent> {
    const response = await this.send("GET", `/sites/${encodeURIComponent(site)}/follow`, "text/event-stream", {}, {});
    let event = "", id: string | undefined;
    for await (const line of this.lines(response)) {
      if (line.startsWith("event: ")) event = line.slice(7);
      if (line.startsWith("id: ")) id = line.slice(4);
      if (line.startsWith("data: ")) {
        yield { event, id, data: JSON.parse(line.slice(6)) };
        id = undefined;
      }
    }
  }

  /** What happened last in the shop, what happens, and how it is, as it comes. */
  async *getEvents(options: { lastEventID?: string } = {}): AsyncGenerator<ServerEvent> {
    const response = await this.send("GET", `/events`, "text/event-stream", {}, { "Last-Event-ID": options.lastEventID });
    let event = "", id: string | undefined;
    for await (const line of this.lines(response)) {
      if (line.startsWith("event: ")) event = line.slice(7);
      if (line.startsWith("id: ")) id = line.slice(4);
      if (line.startsWith("data: ")) {
        yield { event, id, data: JSON.parse(line.slice(6)) };
        id = undefined;
      }
    }
  }

  /** Audits the logs of all sites. */
  async getAudit(options: { timeout?: number } = {}): Promise<Verdict> {
    return (await (await this.send("GET", `/audit`, "application/json", { "timeout": options.timeout }, {})).json()) as Verdict;
  }

  /** What Prometheus reads. */
  async getMetrics(): Promise<string> {
    return (await (await this.send("GET", `/metrics`, "text/plain", {}, {})).text()) as string;
  }
}
