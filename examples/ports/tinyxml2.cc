// tinyxml2: a document is made, printed in both forms, read back, walked and changed; another one has a fault.
#include <stdio.h>
#include <string.h>

#include "port.h"
#include "tinyxml2.h"

using namespace tinyxml2;

static void make(XMLDocument &document) {
    unsigned state = 1;
    document.InsertEndChild(document.NewDeclaration());
    XMLElement *root = document.NewElement("rows");
    document.InsertEndChild(root);
    for (int k = 0; k < 200; k++) {
        XMLElement *row = root->InsertNewChildElement("row");
        row->SetAttribute("number", k);
        row->SetAttribute("part", next_of(&state, 1000) / 7.0);
        row->SetAttribute("odd", k % 2 == 1);
        row->InsertNewChildElement("text")->SetText(k % 3 ? "plain" : "<quoted> & \"more\" \xc3\xa9");
        row->InsertNewComment("a comment");
        row->InsertNewText("raw ]] text")->SetCData(k % 4 == 0);
    }
}

namespace {
class Counter : public XMLVisitor {
  public:
    unsigned sum = 0;
    bool VisitEnter(const XMLElement &element, const XMLAttribute *first) override {
        sum = sum_of(sum, element.Name(), strlen(element.Name()));
        for (; first != nullptr; first = first->Next()) sum = sum_of(sum, first->Value(), strlen(first->Value()));
        return true;
    }
    bool Visit(const XMLText &text) override {
        sum = sum_of(sum, text.Value(), strlen(text.Value()));
        return true;
    }
};
} // namespace

static unsigned work(unsigned sum) {
    XMLDocument document, back;
    XMLPrinter pretty, plain(nullptr, true);
    Counter counter;
    make(document);
    document.Print(&pretty);
    XMLError status = back.Parse(pretty.CStr());
    double total = 0;
    for (XMLElement *row = back.RootElement()->FirstChildElement("row"); row != nullptr; row = row->NextSiblingElement()) {
        total += row->DoubleAttribute("part") + row->IntAttribute("number");
        if (row->BoolAttribute("odd")) row->DeleteChild(row->FirstChildElement());
    }
    back.Accept(&counter);
    back.Print(&plain);
    sum = sum_of(sum_of(sum, pretty.CStr(), pretty.CStrSize()), plain.CStr(), plain.CStrSize());
    sum = sum_of(sum_of(sum, &total, sizeof total), &counter.sum, sizeof counter.sum);
    return sum_of(sum, &status, sizeof status);
}

int main(int argc, char **argv) {
    unsigned sum = 0;
    for (int k = rounds_of(argc, argv); k > 0; k--) sum = work(sum);
    XMLDocument bad;
    bad.Parse("<a><b x='1'>&#65;&amp;</c></a>");
    printf("%08x %s, line %d\n", sum, bad.ErrorName(), bad.ErrorLineNum());
    return 0;
}
