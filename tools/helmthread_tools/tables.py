"""The actions, directives and keywords that Helmthread reads, and the rules of their values."""
import re
from urllib.parse import quote, unquote

FLAG, SINGLE, LIST = "flag", "single", "list"

# An action's name, what it takes, and its rule for values.
ACTIONS = {
    "add-header": (LIST, "field"),
    "block": (SINGLE, "any"),
    "change-x-forwarded-for": (SINGLE, ("block", "add")),
    "client-body-filter": (LIST, "text"),
    "client-body-tagger": (LIST, "text"),
    "client-header-filter": (LIST, "text"),
    "client-header-tagger": (LIST, "text"),
    "content-type-overwrite": (SINGLE, "text"),
    "crunch-client-header": (SINGLE, "text"),
    "crunch-if-none-match": (FLAG, None),
    "crunch-incoming-cookies": (FLAG, None),
    "crunch-outgoing-cookies": (FLAG, None),
    "crunch-server-header": (SINGLE, "text"),
    "deanimate-gifs": (SINGLE, "text"),
    "delay-response": (SINGLE, "text"),
    "downgrade-http-version": (FLAG, None),
    "external-filter": (LIST, "text"),
    "fast-redirects": (SINGLE, ("simple-check", "check-decoded-url")),
    "filter": (LIST, "text"),
    "force-text-mode": (FLAG, None),
    "forward-override": (SINGLE, "parent"),
    "handle-as-empty-document": (FLAG, None),
    "handle-as-image": (FLAG, None),
    "hide-accept-language": (SINGLE, "text"),
    "hide-content-disposition": (SINGLE, "text"),
    "hide-from-header": (SINGLE, "text"),
    "hide-if-modified-since": (SINGLE, "text"),
    "hide-referrer": (SINGLE, "text"),
    "hide-user-agent": (SINGLE, "text"),
    "https-inspection": (FLAG, None),
    "ignore-certificate-errors": (FLAG, None),
    "limit-connect": (SINGLE, "ports"),
    "limit-cookie-lifetime": (SINGLE, "minutes"),
    "overwrite-last-modified": (SINGLE, ("block", "reset-to-request-time", "randomize")),
    "prevent-compression": (FLAG, None),
    "redirect": (SINGLE, "text"),
    "server-header-filter": (LIST, "text"),
    "server-header-tagger": (LIST, "text"),
    "session-cookies-only": (FLAG, None),
    "set-image-blocker": (SINGLE, "text"),
    "suppress-tag": (LIST, "text"),
}
NO_EFFECT = {
    "client-body-filter",
    "client-body-tagger",
    "deanimate-gifs",
    "delay-response",
    "external-filter",
    "https-inspection",
    "ignore-certificate-errors",
}

# Values that mean something of their own; any other text is sent as it is.
FIXED_WORDS = {
    "hide-referrer": ("block", "forge", "conditional-block", "conditional-forge"),
    "hide-from-header": ("block",),
    "hide-accept-language": ("block",),
    "hide-content-disposition": ("block",),
    "hide-if-modified-since": ("block",),
    "set-image-blocker": ("blank", "pattern"),
}
FILTER_ACTIONS = {
    "filter": "FILTER",
    "client-header-filter": "CLIENT-HEADER-FILTER",
    "server-header-filter": "SERVER-HEADER-FILTER",
    "client-header-tagger": "CLIENT-HEADER-TAGGER",
    "server-header-tagger": "SERVER-HEADER-TAGGER",
}
READ_KINDS = (
    "FILTER",
    "CLIENT-HEADER-FILTER",
    "SERVER-HEADER-FILTER",
    "CLIENT-HEADER-TAGGER",
    "SERVER-HEADER-TAGGER",
)
UNREAD_KINDS = ("EXTERNAL-FILTER", "CLIENT-BODY-FILTER", "CLIENT-BODY-TAGGER")
# What begins a URL pattern whose host is an expression.
HOST_EXPRESSION = "PCRE-HOST-PATTERN:"
REQUEST_TAGS = ("TAG:", "NO-REQUEST-TAG:", "CLIENT-TAG:")
TAG_WORDS = ("TAG:", "NO-REQUEST-TAG:", "NO-RESPONSE-TAG:", "CLIENT-TAG:")

DIRECTIVES = (
    "actionsfile",
    "filterfile",
    "host-list",
    "confdir",
    "templdir",
    "listen-address",
    "buffer-limit",
    "forward",
    "forward-socks5",
    "forward-socks5t",
    "handle-as-empty-doc-returns-ok",
    "toggle",
    "link-reuse",
    "access-log",
    "pattern-limit",
    "client-specific-tag",
)
SOCKS4 = ("forward-socks4", "forward-socks4a")
SOCKS5 = ("forward-socks5", "forward-socks5t")

# The pages of the proxy's own, and the conditions that a template may have.
PAGES = (
    "blocked",
    "connect-denied",
    "no-such-domain",
    "connect-failed",
    "forwarding-failed",
    "send-failed",
    "no-server-data",
    "bad-reply",
    "invalid-request",
    "head-too-long",
    "bad-rewrite",
)
CONDITIONS = ("block-reason", "parent")
# The word that begins a pattern of a client's tag, and a link by which a client puts a tag on.
CLIENT_TAG = "CLIENT-TAG:"
TAG_LINK = re.compile(r"http://(?:p\.p|config\.privoxy\.org)/client-tags/on\?([^\s\"'<>]*)")

PRIVOXYS_FOLDER = "/etc/privoxy"
# Directives of Privoxy's that aren't read here, each with what that means.
ELSEWHERE = {
    "accept-intercepted-requests": "requests that were led here without the browser's knowledge aren't served",
    "admin-address": "no page names it",
    "proxy-info-url": "no page names it",
    "user-manual": "no page names it",
    "allow-cgi-request-crunching": "there are no such pages",
    "enable-edit-actions": "files are edited with an editor",
    "enable-remote-toggle": "nothing but client tags can be switched from a browser",
    "enable-remote-http-toggle": "nothing can be switched from a request",
    "enable-compression": "answers to the browser aren't compressed",
    "compression-level": "answers to the browser aren't compressed",
    "enable-proxy-authentication-forwarding": "Proxy-Authorization isn't sent on",
    "enforce-blocks": "blocks always hold",
    "forwarded-connect-retries": "a parent is asked once",
    "keep-alive-timeout": "times are fixed",
    "default-server-timeout": "times are fixed",
    "socket-timeout": "times are fixed",
    "connection-sharing": "`link-reuse 1` is something like it: requests of one client share links",
    "logdir": "there is no log",
    "logfile": "there is no log",
    "debug": "there is no log",
    "hostname": "pages name the host asked for",
    "max-client-connections": "`serve` has a number of its own behind the file",
    "listen-backlog": "the system's own is taken",
    "permit-access": "only this machine is served",
    "deny-access": "only this machine is served",
    "single-threaded": "`serve` has a number of its own behind the file",
    "split-large-forms": "there are no such pages",
    "tolerate-pipelining": "requests that come early wait",
    "trustfile": "there is no list of trusted sites: pages that it kept away are seen",
    "trust-info-url": "there is no list of trusted sites",
    "temporary-directory": "none is needed",
    "client-tag-lifetime": "a tag stays on until it is taken off, or `serve` ends",
    "trust-x-forwarded-for": "clients are told apart by the address from which they come",
    "trusted-cgi-referer": "there are no such pages",
    "cors-allowed-origin": "there are no such pages",
    "delay-response": "there are no delays",
    "ca-directory": "https isn't looked into",
    "ca-cert-file": "https isn't looked into",
    "ca-key-file": "https isn't looked into",
    "ca-password": "https isn't looked into",
    "certificate-directory": "https isn't looked into",
    "cipher-list": "https isn't looked into",
    "trusted-cas-file": "https isn't looked into",
    "activity-animation": "there is no window",
    "log-messages": "there is no window",
    "log-buffer-size": "there is no window",
    "show-on-task-bar": "there is no window",
    "close-button-minimizes": "there is no window",
    "hide-console": "there is no window",
    "receive-buffer-size": "the size is fixed",
    "client-specific-tag-lifetime": "a tag stays on until it is taken off, or `serve` ends",
}

# Those of them that say who is served, or by which way, where their value isn't 0.
WHO_IS_SERVED = (
    "accept-intercepted-requests",
    "enable-proxy-authentication-forwarding",
    "permit-access",
    "deny-access",
    "trustfile",
    "trust-info-url",
    "client-tag-lifetime",
    "client-specific-tag-lifetime",
    "trust-x-forwarded-for",
)

HOST = re.compile(r"(?:[A-Za-z0-9._-]+|\[[0-9A-Fa-f:.]+\])(?::(\d{1,5}))?\Z")
HELD_BACK = {
    "connection",
    "proxy-connection",
    "keep-alive",
    "te",
    "trailer",
    "transfer-encoding",
    "upgrade",
    "content-length",
    "host",
    "expect",
    "proxy-authorization",
}


def tag_link(switch, name):
    """Where a client puts a tag `on`, or takes it `off`."""
    return "http://p.p/client-tags/%s?%s" % (switch, quote(name, encoding="latin-1"))


def linked_tags(text):
    """The tags that the links of a page put on."""
    return [unquote(name, encoding="latin-1") for name in TAG_LINK.findall(text)]


def is_parent(text):
    """Whether the text is `.`, or a host and perhaps a port."""
    found = HOST.match(text)
    return text == "." or bool(found and (found[1] is None or 0 < int(found[1]) < 65536))


def has_protocol(text):
    """Whether a pattern begins with http:// or https://, which a pattern here doesn't."""
    return re.match("(?i)https?://", text) is not None


def is_ports(text):
    """Whether the text is a list of ports."""
    for item in text.split(","):
        item = item.strip(" \t")
        if item in ("", "-"):
            continue
        found = re.fullmatch(r"(\d*)(-?)(\d*)", item)
        if not found:
            return False
        low, dash, high = found.groups()
        values = [int(value) for value in (low, high) if value]
        if (
            any(not 0 < value < 65536 for value in values)
            or dash
            and low
            and high
            and int(low) > int(high)
        ):
            return False
    return text != ""


def listens_here(value):
    """(is the form right, is it an address of this machine) for a value of listen-address."""
    if value.startswith("["):
        host, bracket, rest = value[1:].partition("]")
        if not bracket:
            return False, False
    else:
        host, colon, port = value.partition(":")
        rest = colon + port
    if rest and not (re.fullmatch(r":\d{1,5}", rest) and 0 < int(rest[1:]) < 65536):
        return False, False
    found = re.fullmatch(r"127\.(\d{1,3})\.(\d{1,3})\.(\d{1,3})", host)
    here = (
        value.startswith("[")
        and host == "::1"
        or host == "localhost"
        or bool(found and all(int(part) < 256 for part in found.groups()))
    )
    return True, here


def is_field(text):
    """Whether the text is a field line that may be added."""
    found = re.match(r"([!#$%&'*+.^_`|~0-9A-Za-z-]+):", text)
    return bool(found) and found[1].lower() not in HELD_BACK and not re.search(r"[\r\n\0]", text)


def value_is_allowed(name, value):
    """Whether an action takes the value, without white space at its ends."""
    rule = ACTIONS[name][1]
    if isinstance(rule, tuple):
        return value in rule
    if rule == "parent":
        words = value.split()
        return len(words) == 2 and words[0] == "forward" and is_parent(words[1])
    return {
        "any": lambda: True,
        "text": lambda: value != "",
        "ports": lambda: is_ports(value),
        "field": lambda: is_field(value),
        "minutes": lambda: bool(re.fullmatch(r"\d{1,9}", value)) and int(value) <= 100000000,
    }[rule]()


def balanced(text):
    """Whether the braces of the text balance; one behind a backslash isn't counted."""
    depth, at = 0, 0
    while at < len(text):
        if text[at] == "\\":
            at += 1
        elif text[at] == "{":
            depth += 1
        elif text[at] == "}":
            depth -= 1
            if depth < 0:
                return False
        at += 1
    return depth == 0


def words_of(text):
    """The words between a section's braces: parted by white space where no brace is open."""
    words, word, depth, at = [], "", 0, 0
    while at < len(text):
        char = text[at]
        if char == "\\" and at + 1 < len(text) and text[at + 1] not in " \t":
            word += text[at : at + 2]
            at += 2
            continue
        if char in " \t" and depth == 0:
            words += [word] if word else []
            word = ""
        else:
            depth += {"{": 1, "}": -1}.get(char, 0)
            word += char
        at += 1
    return words + ([word] if word else [])


def heading_end(text):
    """Where the brace stands that balances the first one; -1 where there is none."""
    depth, at = 0, 0
    while at < len(text):
        if text[at] == "\\":
            at += 1
        elif text[at] == "{":
            depth += 1
        elif text[at] == "}":
            depth -= 1
            if depth == 0:
                return at
        at += 1
    return -1


def parted(word):
    """A word as sign, name and value; the value is None where it has no brace."""
    sign = word[:1] if word[:1] in "+-" and word else ""
    name, brace, rest = word[len(sign) :].partition("{")
    if not brace:
        return sign, name, None
    return sign, name, rest[:-1].strip(" \t") if rest.endswith("}") else rest
