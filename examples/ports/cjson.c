/* cJSON: a document is made, printed in both forms, read back, compared, searched and patched. */
#include <stdio.h>
#include <string.h>

#include "cJSON.h"
#include "cJSON_Utils.h"
#include "port.h"

static cJSON *document(int rows) {
    cJSON *all = cJSON_CreateObject(), *list = cJSON_AddArrayToObject(all, "rows");
    unsigned state = 1;
    for (int k = 0; k < rows; k++) {
        cJSON *row = cJSON_CreateObject();
        cJSON_AddNumberToObject(row, "number", k);
        cJSON_AddNumberToObject(row, "part", next_of(&state, 10000) / 7.0);
        cJSON_AddNumberToObject(row, "large", next_of(&state, 30000) * 1e200);
        cJSON_AddStringToObject(row, "text", k % 3 ? "plain" : "\"quoted\"\t\\ \x01 \xc3\xa9");
        cJSON_AddBoolToObject(row, "odd", k % 2);
        cJSON_AddItemToArray(list, row);
    }
    return all;
}

/* A checksum of what is printed, of what is read back, and of the patch that leads to a changed document. */
static unsigned work(unsigned sum) {
    cJSON *first = document(100), *copy = cJSON_Duplicate(first, 1);
    char *pretty = cJSON_Print(first);
    cJSON *back = cJSON_Parse(pretty);
    char *plain = cJSON_PrintUnformatted(back);
    cJSON_ReplaceItemInObject(cJSONUtils_GetPointer(copy, "/rows/7"), "text", cJSON_CreateString("changed"));
    cJSON_DeleteItemFromArray(cJSON_GetObjectItem(copy, "rows"), 50);
    cJSON *patches = cJSONUtils_GeneratePatches(back, copy);
    char *text = cJSON_PrintUnformatted(patches);
    int equal = cJSON_Compare(first, back, 1) + 2 * cJSON_Compare(first, copy, 1);
    int patched = cJSONUtils_ApplyPatches(back, patches), same = cJSON_Compare(back, copy, 1);
    sum = sum_of(sum_of(sum_of(sum, pretty, strlen(pretty)), plain, strlen(plain)), text, strlen(text));
    sum = sum_of(sum, (int[]){equal, patched, same}, 3 * sizeof(int));
    cJSON_free(pretty), cJSON_free(plain), cJSON_free(text);
    cJSON_Delete(first), cJSON_Delete(copy), cJSON_Delete(back), cJSON_Delete(patches);
    return sum;
}

int main(int argc, char **argv) {
    cJSON *small = cJSON_Parse(" [1.5e3, -0.1, 1e-7, {\"a\": [true, false, null, \"\\u00e9\\ud834\\udd1e\"]}] ");
    char *text = cJSON_PrintUnformatted(small);
    printf("%s %d\n", text, cJSON_Parse("[1, 2") == NULL);
    cJSON_free(text);
    cJSON_Delete(small);
    unsigned sum = 0;
    for (int k = rounds_of(argc, argv); k > 0; k--) sum = work(sum);
    printf("%08x\n", sum);
    return 0;
}
