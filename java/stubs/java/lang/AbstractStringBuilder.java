package java.lang;

import boomer.support.Keeps;

@Keeps(value = "nothing", covers = "runs")
abstract class AbstractStringBuilder {
    AbstractStringBuilder() { }
}
