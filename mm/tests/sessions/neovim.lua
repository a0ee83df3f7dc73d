-- Neovim's own client with `mm lsp`, for .ci/serve: it opens a source with a mistake, mends it, and asks what an editor
-- asks. Each line that it writes is compared. $MM_FOR_TESTS is the program mm.
local lines = {
  "; a source", ".segment main 6", "  ldi r1, 65", "loop: outt r1", "  bnz r1, loop", "  halt", ".thread 0 0 none xu main",
}
local function say(...)
  io.stdout:write(table.concat({ ... }, " "), "\n")
end
vim.api.nvim_buf_set_lines(0, 0, -1, true, lines)
vim.api.nvim_buf_set_name(0, vim.fn.tempname() .. ".asm")
local client = vim.lsp.start_client({ name = "mm", cmd = { vim.env.MM_FOR_TESTS, "lsp" }, root_dir = "/" })
vim.lsp.buf_attach_client(0, client)
local function wait(test)
  if not vim.wait(20000, test, 20) then say("this never comes") end
end
wait(function() return #vim.diagnostic.get(0) > 0 end)
for _, found in ipairs(vim.diagnostic.get(0)) do
  say("mistake", found.lnum, found.col, found.end_col, (found.message:gsub("\n", " / ")))
end
vim.api.nvim_buf_set_lines(0, 3, 4, true, { "loop: out r1" })
wait(function() return #vim.diagnostic.get(0) == 0 end)
say("mended")
local function ask(method, line, character)
  local params = { textDocument = vim.lsp.util.make_text_document_params(0), position = { line = line, character = character },
    context = { includeDeclaration = true } }
  local answers = vim.lsp.buf_request_sync(0, method, params, 20000) or {}
  for _, answer in pairs(answers) do return answer.result end
end
say("hover", (ask("textDocument/hover", 2, 3).contents.value:match("\n(.-)\n")))
say("definition", ask("textDocument/definition", 4, 12).range.start.line)
say("references", #ask("textDocument/references", 4, 12))
say("symbols", #ask("textDocument/documentSymbol", 0, 0))
for _, item in ipairs(ask("textDocument/completion", 2, 4)) do say("offer", item.label) end
vim.lsp.stop_client(client)
wait(function() return vim.lsp.client_is_stopped(client) end)
vim.cmd("qall!")
