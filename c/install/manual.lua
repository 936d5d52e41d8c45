-- Turns the tables of a manual page into lists of their rows, for manual.sh: on a page of 80 columns a table's
-- columns are too narrow to be read or searched. A row's first cell is on a line of its own, with the others below
-- it; from the third cell on, each follows the head of its column. Pictures are left out.

function Image() return {} end

function Table(it)
    local inlines = pandoc.utils.blocks_to_inlines
    local simple = pandoc.utils.to_simple_table and pandoc.utils.to_simple_table(it) or it
    local rows = {}
    for _, cells in ipairs(simple.rows) do
        local below = {}
        for column = 2, #cells do
            local said = inlines(cells[column])
            if column > 2 and #said > 0 then
                local head = pandoc.Emph(inlines(simple.headers[column]))
                said = pandoc.List:new { head, pandoc.Str ':', pandoc.Space() } .. said
            end
            if #said > 0 then table.insert(below, pandoc.Para(said)) end
        end
        table.insert(rows, { inlines(cells[1]), { below } })
    end
    return pandoc.DefinitionList(rows)
end
