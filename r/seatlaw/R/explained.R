# Why a call has no result: as the program says it, and in parts, which are read off the JSON of a report (docs/report.schema.json).

# The condition of a reply that is not done: `again` asks for the same with other options, and `files` are those of the request.
fault_of <- function(reply, again, files) {
  if (reply$status == 1) return(simpleError(sub("\n+$", "", reply$err)))
  kinds <- c("seatlaw_refused", "seatlaw_legal_fault", "seatlaw_out_of_budget", "seatlaw_no_memory")
  line <- if (reply$status == 5) "there is no memory" else line_of(reply$out)
  structure(
    class = c(kinds[reply$status - 1], "seatlaw_error", "error", "condition"),
    list(
      message = line, call = NULL, line = line, status = reply$status, explanation = function(language) again("--lang", language)$err,
      explained = function() explained_of(if (is_json(reply$out)) reply$out else report_of(files))
    )
  )
}

# The JSON of a report on the inputs of a request without one. A rulebook is judged before the returns, so these may be no bytes.
report_of <- function(files) {
  if (is.null(files$book)) return("")
  ask(c("report", "--json", "--quiet", "book", "returns"), list(book = files$book, returns = if (is.null(files$returns)) raw() else files$returns))$out
}

# The line of a refusal or of a fault.
line_of <- function(text) if (is_json(text)) texts_of(member_of(text, "fault")) else sub("\n.*$", "", text)

# The explanation of a report's JSON in parts: code, input, sentence, place, help, records and more; NULL where it has none.
explained_of <- function(json) {
  if (!grepl('"explanation":{', json, fixed = TRUE)) return(NULL)
  texts <- function(name) texts_of(member_of(json, name))
  place <- member_of(json, "place")
  list(
    code = if (length(texts("code"))) texts("code") else NA_character_, input = texts("input"), sentence = texts("sentence"),
    place = if (place != "null") sapply(c("line", "column", "start", "end"), function(name) as.integer(member_of(place, name))),
    help = texts("help"), records = texts("records"), more = texts("more")
  )
}

# ---- JSON, of which no more is read than a line and an explanation

is_json <- function(text) startsWith(text, "{")

STRING <- '"(?:[^"\\\\]++|\\\\.)*+"'
VALUE <- paste0("(?:", STRING, '|\\[(?:[^"\\]]++|', STRING, ")*+\\]|\\{[^{}]*+\\}|[^,}\\]]++)")

# The JSON of the first member of that name: a text, texts, an object of numbers, a number or null. No text has such a member in it, since its quotes
# stand after a backslash, and the members of the heading stand before the tables.
member_of <- function(json, name) {
  found <- regmatches(json, regexpr(paste0('"', name, '":', VALUE), json, perl = TRUE))
  substring(found, nchar(name) + 4)
}

# The texts of a JSON value, one or a list of them.
texts_of <- function(json) {
  texts <- regmatches(json, gregexpr(STRING, json, perl = TRUE))[[1]]
  texts <- substring(texts, 2, nchar(texts) - 1)
  escapes <- gregexpr("\\\\(?:u[0-9a-fA-F]{4}|.)", texts, perl = TRUE)
  regmatches(texts, escapes) <- lapply(regmatches(texts, escapes), function(found) vapply(found, meant, ""))
  texts
}

# What an escape of a JSON text means.
meant <- function(escape) {
  letter <- substring(escape, 2, 2)
  if (letter == "u") return(intToUtf8(strtoi(substring(escape, 3), 16)))
  switch(letter, n = "\n", t = "\t", r = "\r", b = "\b", f = "\f", letter)
}
